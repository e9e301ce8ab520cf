"""The table of messages, beside the stubs that Debian's package has of the protocol's own files."""
import unittest

import here  # noqa: F401
from grove_etcd import etcdrpc

try:
    from etcd3.etcdrpc import kv_pb2, rpc_pb2
except ImportError:
    rpc_pb2 = None


def fields_of(descriptor):
    """By name, the number, the form of its value, and of which choice it is one; an enum's is that of a number."""
    told = {}
    for field in descriptor.fields:
        kind = field.message_type.name if field.message_type else 5 if field.enum_type else field.type
        choice = field.containing_oneof.name if field.containing_oneof else None
        told[field.name] = field.number, kind, field.label == field.LABEL_REPEATED, choice
    return told


@unittest.skipIf(rpc_pb2 is None, "Debian's stubs aren't there")
class Messages(unittest.TestCase):
    def test_each_field_is_that_of_the_protocol(self):
        self.assertGreater(len(etcdrpc.KNOWN), 18)
        for name, known in etcdrpc.KNOWN.items():
            protocol = rpc_pb2 if hasattr(rpc_pb2, name) else kv_pb2
            wanted = fields_of(getattr(protocol, name).DESCRIPTOR)
            for field, told in fields_of(known.DESCRIPTOR).items():
                self.assertEqual(told, wanted[field], f"{name}.{field}")

    def test_numbers_of_enums(self):
        compare, ranging = rpc_pb2.Compare, rpc_pb2.RangeRequest
        results = compare.EQUAL, compare.GREATER, compare.LESS, compare.NOT_EQUAL
        self.assertEqual((etcdrpc.EQUAL, etcdrpc.GREATER, etcdrpc.LESS, etcdrpc.NOT_EQUAL), results)
        self.assertEqual((etcdrpc.VERSION, etcdrpc.MOD, etcdrpc.VALUE), (compare.VERSION, compare.MOD, compare.VALUE))
        self.assertEqual((etcdrpc.DESCENDING, etcdrpc.BY_KEY), (ranging.DESCEND, ranging.KEY))
        self.assertEqual(etcdrpc.DELETED, kv_pb2.Event.DELETE)


if __name__ == "__main__":
    unittest.main()
