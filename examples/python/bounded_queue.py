"""A queue of a fixed capacity, in a list that is used in a ring, and a workshop that works through jobs with it."""

import random


class BoundedQueue:
    """At most `capacity` whole numbers, of which the first that came is the first that goes."""

    def __init__(self, capacity):
        self.capacity = capacity
        self.items = [0] * capacity
        self.head = 0
        self.length = 0

    def is_full(self):
        """Whether nothing more can be put in."""
        return self.length == self.capacity

    def push(self, item):
        """Puts an item behind the others; answers whether there was room."""
        if self.is_full():
            return False
        self.items[(self.head + self.length) % self.capacity] = item
        self.length += 1
        return True

    def pop(self):
        """Takes the first item, or answers None."""
        if self.length == 0:
            return None
        item = self.items[self.head]
        self.head = (self.head + 1) % self.capacity
        self.length -= 1
        return item

    def peek(self, place):
        """The item at a place, counted from the first."""
        if not 0 <= place < self.length:
            raise IndexError(place)
        return self.items[(self.head + place) % self.capacity]


class Workshop:
    """Jobs that wait, and how many were turned away."""

    def __init__(self, capacity):
        self.waiting = BoundedQueue(capacity)
        self.done = 0
        self.turned_away = 0

    def take(self, minutes):
        """A job comes in."""
        if not self.waiting.push(minutes):
            self.turned_away += 1

    def work(self, minutes):
        """Works for so many minutes, and answers how many jobs were done."""
        done = 0
        while minutes > 0:
            job = self.waiting.pop()
            if job is None:
                break
            minutes -= job
            done += 1
        self.done += done
        return done


def longest(queue):
    """The longest job that waits."""
    most = 0
    for place in range(queue.length):
        most = max(most, queue.peek(place))
    return most


def day(workshop, chance):
    """A day: jobs come, and are worked on."""
    for _ in range(chance.randrange(8)):
        workshop.take(chance.randrange(5, 60))
    longest(workshop.waiting)
    return workshop.work(chance.randrange(60, 240))


def main():
    """Some weeks of three workshops."""
    chance = random.Random(7)
    for capacity in (3, 4, 6):
        workshop = Workshop(capacity)
        for _ in range(20):
            day(workshop, chance)
        print(capacity, "places:", workshop.done, "done,", workshop.turned_away, "turned away")


if __name__ == "__main__":
    main()
