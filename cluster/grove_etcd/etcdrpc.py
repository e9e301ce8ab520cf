"""The messages of etcd's protocol that are used here, as `rpc.proto` and `kv.proto` of etcd 3.4 have them.

They are made of this table when the module is loaded. So nothing generated is needed, which would go together with some
versions of protobuf alone. An enum is a number in the same form. Calls are named by their paths (members.py).
"""
from __future__ import annotations

from typing import Any, Iterator

from google.protobuf import descriptor_pb2, descriptor_pool, message_factory

PACKAGE = "etcdserverpb"
# By message, its fields: the name, the number, the type, and the choice of which it is one.
MESSAGES = """
KeyValue: key 1 bytes, create_revision 2 int64, mod_revision 3 int64, version 4 int64, value 5 bytes, lease 6 int64
Event: type 1 int32, kv 2 KeyValue, prev_kv 3 KeyValue
ResponseHeader: cluster_id 1 uint64, member_id 2 uint64, revision 3 int64, raft_term 4 uint64
RangeRequest: key 1 bytes, range_end 2 bytes, limit 3 int64, revision 4 int64, sort_order 5 int32, sort_target 6 int32
RangeRequest: serializable 7 bool, keys_only 8 bool, count_only 9 bool, min_mod_revision 10 int64
RangeResponse: header 1 ResponseHeader, kvs 2 KeyValue[], more 3 bool, count 4 int64
PutRequest: key 1 bytes, value 2 bytes, lease 3 int64, prev_kv 4 bool
PutResponse: header 1 ResponseHeader, prev_kv 2 KeyValue
DeleteRangeRequest: key 1 bytes, range_end 2 bytes, prev_kv 3 bool
DeleteRangeResponse: header 1 ResponseHeader, deleted 2 int64, prev_kvs 3 KeyValue[]
RequestOp: request_range 1 RangeRequest request, request_put 2 PutRequest request
RequestOp: request_delete_range 3 DeleteRangeRequest request, request_txn 4 TxnRequest request
ResponseOp: response_range 1 RangeResponse response, response_put 2 PutResponse response
ResponseOp: response_delete_range 3 DeleteRangeResponse response, response_txn 4 TxnResponse response
Compare: result 1 int32, target 2 int32, key 3 bytes, version 4 int64 target_union
Compare: create_revision 5 int64 target_union, mod_revision 6 int64 target_union, value 7 bytes target_union
TxnRequest: compare 1 Compare[], success 2 RequestOp[], failure 3 RequestOp[]
TxnResponse: header 1 ResponseHeader, succeeded 2 bool, responses 3 ResponseOp[]
WatchCreateRequest: key 1 bytes, range_end 2 bytes, start_revision 3 int64, progress_notify 4 bool, prev_kv 6 bool
WatchRequest: create_request 1 WatchCreateRequest request_union
WatchResponse: header 1 ResponseHeader, watch_id 2 int64, created 3 bool, canceled 4 bool, compact_revision 5 int64
WatchResponse: cancel_reason 6 string, events 11 Event[]
AuthenticateRequest: name 1 string, password 2 string
AuthenticateResponse: header 1 ResponseHeader, token 2 string
"""
# Results and targets of compares, the order of a range, and the type of an event that deletes a key.
EQUAL, GREATER, LESS, NOT_EQUAL = 0, 1, 2, 3
VERSION, MOD, VALUE = 0, 2, 3
DESCENDING, BY_KEY = 2, 0
DELETED = 1

Field = descriptor_pb2.FieldDescriptorProto


def described() -> descriptor_pb2.FileDescriptorProto:
    file = descriptor_pb2.FileDescriptorProto(name="grove_etcd.proto", package=PACKAGE, syntax="proto3")
    by_name: dict[str, Any] = {}
    for line in MESSAGES.strip().splitlines():
        name, _, fields = line.partition(": ")
        if name not in by_name:
            by_name[name] = file.message_type.add(name=name)
        for field in fields.split(", "):
            add_field(by_name[name], *field.split())
    return file


def add_field(message: Any, name: str, number: str, kind: str, choice: str = "") -> None:
    field = message.field.add(name=name, number=int(number))
    field.label = Field.LABEL_REPEATED if kind.endswith("[]") else Field.LABEL_OPTIONAL
    plain = kind.removesuffix("[]")
    if plain[0].isupper():
        field.type, field.type_name = Field.TYPE_MESSAGE, f".{PACKAGE}.{plain}"
    else:
        field.type = getattr(Field, f"TYPE_{plain.upper()}")
    if choice:
        known = [each.name for each in message.oneof_decl]
        if choice not in known:
            message.oneof_decl.add(name=choice)
        field.oneof_index = (known + [choice]).index(choice)


def classes() -> Iterator[tuple[str, Any]]:
    pool = descriptor_pool.DescriptorPool()
    file = described()
    pool.Add(file)
    newer = getattr(message_factory, "GetMessageClass", None)
    class_of = newer or message_factory.MessageFactory(pool).GetPrototype
    for message in file.message_type:
        yield message.name, class_of(pool.FindMessageTypeByName(f"{PACKAGE}.{message.name}"))


KNOWN = dict(classes())
Event, KeyValue, ResponseHeader = KNOWN["Event"], KNOWN["KeyValue"], KNOWN["ResponseHeader"]
RangeRequest, RangeResponse, PutRequest = KNOWN["RangeRequest"], KNOWN["RangeResponse"], KNOWN["PutRequest"]
PutResponse, DeleteRangeResponse = KNOWN["PutResponse"], KNOWN["DeleteRangeResponse"]
DeleteRangeRequest, Compare = KNOWN["DeleteRangeRequest"], KNOWN["Compare"]
RequestOp, ResponseOp = KNOWN["RequestOp"], KNOWN["ResponseOp"]
TxnRequest, TxnResponse = KNOWN["TxnRequest"], KNOWN["TxnResponse"]
WatchRequest, WatchCreateRequest = KNOWN["WatchRequest"], KNOWN["WatchCreateRequest"]
WatchResponse = KNOWN["WatchResponse"]
AuthenticateRequest, AuthenticateResponse = KNOWN["AuthenticateRequest"], KNOWN["AuthenticateResponse"]
