"""Batches of many clients at once: put in the order that their replies give, they are done once more, list by list."""
from store import Store

MOST_LISTS = 256


def fault_of_history(document, batches):
    """What is wrong with all the batches that a new store of the document was sent, each as its lists and the reply
    that they got; `None` if the replies are those of the lists done whole, by rounds and by the places in them."""
    done = {}
    for lists, found in batches:
        if not len(lists) == len(found["places"]) == len(found["replies"]):
            return f"a batch of {len(lists)} lists has other numbers of places or replies"
        places = done.setdefault(found["round"], {})
        for place, accesses, replies in zip(found["places"], lists, found["replies"]):
            if place in places:
                return f"round {found['round']} has place {place} twice"
            places[place] = accesses, replies
    if sorted(done) != list(range(1, len(done) + 1)):
        return "the rounds aren't counted from 1"
    return fault_of_rounds(Store(document), [done[number] for number in sorted(done)])


def fault_of_rounds(store, rounds):
    for number, places in enumerate(rounds, 1):
        if sorted(places) != list(range(len(places))) or len(places) > MOST_LISTS:
            return f"round {number} has the places {sorted(places)}"
        for place in sorted(places):
            accesses, replies = places[place]
            wanted = [store.reply(access) for access in accesses]
            if replies != wanted:
                return f"round {number}, place {place}: {accesses} wanted {wanted}; came {replies}"
    return None
