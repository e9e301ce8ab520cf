"""The lists of an epoch done whole, one after the other in the order that its audit printed, by themselves."""
import json

from store import Store


def fault_of_order(document, lists, told, records, replies):
    """What is wrong with an audit that printed `told`: from the document's records, the lists in its order have to
    leave the records (by path, those that are named) and to have the replies that etcd has."""
    order = json.loads(told["order"])
    if sorted(order) != list(range(len(lists))):
        return f"it names the lists {order}"
    store = Store(document)
    for number in order:
        wanted = [store.reply(access) for access in lists[number]]
        if replies[number] != wanted:
            return f"list {number} wanted {wanted}; came {replies[number]}"
    for path, came in records.items():
        wanted = store.records[store.tree.node_of[path]]
        if came != wanted:
            return f"the record of {path} wanted {wanted}; came {came}"
    return None
