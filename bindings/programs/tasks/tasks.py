"""The examples of the site's tasks. Those in C, C++ and Rust beside them write the same lines."""
import threading

from tree_index import TreeIndex

LOCK = threading.Lock()


def book_of(orders):
    """Returns the quantity at each price."""
    return TreeIndex(orders)


def deposit(balances, account, amount):
    """Adds an amount to the balance of an account, 0 if it has none."""
    balances[account] = balances.get(account, 0) + amount


def ends_within(prices, low, high):
    """Returns the first and the last price within both bounds, or None if there is none."""
    first = next(prices.irange(low, high), None)
    return None if first is None else (first, next(prices.irange(low, high, reverse=True)))


def ask_from(asks, price):
    """Returns the lowest ask from a price on, or None if there is none."""
    return asks.at_or_above(price)


def cancel(offers, low, high):
    """Cancels every offer from one price to another, both included, and returns them."""
    return offers.pop_range(low, high)


def forget_before(samples, time):
    """Removes every pair whose key is below a time, and returns them."""
    return samples.pop_range(maximum=time, inclusive=(True, False))


def register(owners, name, owner):
    """Registers a name for an owner, under the lock. Returns whether the name was free."""
    with LOCK:
        is_free = name not in owners
        if is_free:
            owners[name] = owner
        return is_free


def count_of(counts, word):
    """Returns how often a word was counted."""
    return counts.get(word.encode(), 0)


def share():
    owners, registered = TreeIndex(), []

    def claim(owner):
        registered.append(register(owners, 7, owner))

    threads = [threading.Thread(target=claim, args=(owner,)) for owner in (1, 2)]
    for thread in threads:
        thread.start()
    for thread in threads:
        thread.join()
    return sum(registered)


def main():
    book = book_of([(104, 1), (101, 5), (107, 3), (102, 7)])
    deposit(book, 104, 2)
    for price, quantity in book.items():
        print(f"{quantity} at {price}")
    first, last = ends_within(book, 102, 106)
    print(f"from 102 to 106: {first} and {last}")
    price, quantity = ask_from(book, 103)
    print(f"from 103 on: {quantity} at {price}")
    cancel(book, 102, 104)
    print(f"{len(book)} offers left")
    forget_before(book, 105)
    print(f"{len(book)} from 105 on")
    print(f"{share()} of 2 threads registered the name")
    counts = TreeIndex({b"tree": 3})
    print(f"tree {count_of(counts, 'tree')}, leaf {count_of(counts, 'leaf')}")


if __name__ == "__main__":
    main()
