"""A ledger of accounts in cents: deposits, transfers that cost a fee, and the sum of all, which stays what came from outside."""

import random


class Account:
    """An account whose balance never falls below nothing."""

    def __init__(self, number, fee):
        self.number = number
        self.fee = fee
        self.balance = 0
        self.entries = []

    def deposit(self, amount):
        """Puts an amount in, and answers the new balance."""
        self.balance += amount
        self.entries.append(amount)
        return self.balance

    def can_pay(self, cost):
        """Whether so much can be taken out."""
        return self.balance >= cost

    def withdraw(self, amount):
        """Takes an amount and the fee out where that can be; answers whether it could."""
        cost = amount + self.fee
        if not self.can_pay(amount):
            return False
        self.balance -= cost
        self.entries.append(-cost)
        return True


class Ledger:
    """Accounts by their numbers. What is in all of them, and the fees, have come from outside."""

    def __init__(self):
        self.accounts = {}
        self.total = 0
        self.fees = 0
        self.transfers = 0
        self.refused = 0

    def open(self, fee):
        """A new account; answers its number."""
        account = Account(len(self.accounts) + 1, fee)
        self.accounts[account.number] = account
        return account.number

    def pay_in(self, number, amount):
        """An amount comes from outside; answers what has come so far."""
        self.accounts[number].deposit(amount)
        self.total += amount
        return self.total

    def transfer(self, source, target, amount):
        """Moves an amount between two accounts; answers whether that could be done."""
        if not self.accounts[source].withdraw(amount):
            self.refused += 1
            return False
        self.accounts[target].deposit(amount)
        self.fees += self.accounts[source].fee
        self.transfers += 1
        return True

    def is_balanced(self):
        """Whether the accounts have together what has come from outside, but for the fees."""
        return sum(account.balance for account in self.accounts.values()) == self.total - self.fees


def spread(total, parts):
    """An amount in so many parts, which differ by at most one cent and come to the amount."""
    least, rest = divmod(total, parts)
    return [least + 1] * rest + [least] * (parts - rest)


def month(ledger, chance):
    """A month: wages come in, and are moved about; answers whether the ledger is balanced."""
    numbers = list(ledger.accounts)
    wages = spread(50 * chance.randrange(100, 400), len(numbers))
    for number, wage in zip(numbers, wages):
        ledger.pay_in(number, wage)
    for _ in range(12):
        source, target = chance.sample(numbers, 2)
        ledger.transfer(source, target, 50 * chance.randrange(1, 120))
    return ledger.is_balanced()


def empty(ledger, number, target):
    """Moves all that an account has; where the fee isn't left for it, all but the fee."""
    account = ledger.accounts[number]
    if not ledger.transfer(number, target, account.balance) and account.balance > account.fee:
        ledger.transfer(number, target, account.balance - account.fee)


def main():
    """A year of five accounts."""
    chance = random.Random(11)
    ledger = Ledger()
    for fee in (0, 25, 25, 50, 50):
        ledger.open(fee)
    balanced = [month(ledger, chance) for _ in range(12)]
    for number in (1, 2, 3, 4):
        empty(ledger, number, 5)
    print(ledger.transfers, "transfers,", ledger.refused, "refused,", "balanced" if all(balanced) else "NOT BALANCED")


if __name__ == "__main__":
    main()
