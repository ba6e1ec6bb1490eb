from google.protobuf.internal import containers as _containers
from google.protobuf.internal import enum_type_wrapper as _enum_type_wrapper
from google.protobuf import descriptor as _descriptor
from google.protobuf import message as _message
from typing import ClassVar as _ClassVar, Iterable as _Iterable, Mapping as _Mapping, Optional as _Optional, Union as _Union

DESCRIPTOR: _descriptor.FileDescriptor
SEGMENT_TYPE_CORE: SegmentType
SEGMENT_TYPE_DOWN: SegmentType
SEGMENT_TYPE_UNSPECIFIED: SegmentType
SEGMENT_TYPE_UP: SegmentType

class ASEntry(_message.Message):
    __slots__ = ["signed", "unsigned"]
    SIGNED_FIELD_NUMBER: _ClassVar[int]
    UNSIGNED_FIELD_NUMBER: _ClassVar[int]
    signed: SignedMessage
    unsigned: PathSegmentUnsignedExtensions
    def __init__(self, signed: _Optional[_Union[SignedMessage, _Mapping]] = ..., unsigned: _Optional[_Union[PathSegmentUnsignedExtensions, _Mapping]] = ...) -> None: ...

class ASEntrySignedBody(_message.Message):
    __slots__ = ["extensions", "hop_entry", "isd_as", "mtu", "next_isd_as", "peer_entries"]
    EXTENSIONS_FIELD_NUMBER: _ClassVar[int]
    HOP_ENTRY_FIELD_NUMBER: _ClassVar[int]
    ISD_AS_FIELD_NUMBER: _ClassVar[int]
    MTU_FIELD_NUMBER: _ClassVar[int]
    NEXT_ISD_AS_FIELD_NUMBER: _ClassVar[int]
    PEER_ENTRIES_FIELD_NUMBER: _ClassVar[int]
    extensions: PathSegmentExtensions
    hop_entry: HopEntry
    isd_as: int
    mtu: int
    next_isd_as: int
    peer_entries: _containers.RepeatedCompositeFieldContainer[PeerEntry]
    def __init__(self, isd_as: _Optional[int] = ..., next_isd_as: _Optional[int] = ..., hop_entry: _Optional[_Union[HopEntry, _Mapping]] = ..., peer_entries: _Optional[_Iterable[_Union[PeerEntry, _Mapping]]] = ..., mtu: _Optional[int] = ..., extensions: _Optional[_Union[PathSegmentExtensions, _Mapping]] = ...) -> None: ...

class HeaderAndBody(_message.Message):
    __slots__ = ["body", "header"]
    BODY_FIELD_NUMBER: _ClassVar[int]
    HEADER_FIELD_NUMBER: _ClassVar[int]
    body: bytes
    header: bytes
    def __init__(self, header: _Optional[bytes] = ..., body: _Optional[bytes] = ...) -> None: ...

class HopEntry(_message.Message):
    __slots__ = ["hop_field", "ingress_mtu"]
    HOP_FIELD_FIELD_NUMBER: _ClassVar[int]
    INGRESS_MTU_FIELD_NUMBER: _ClassVar[int]
    hop_field: HopField
    ingress_mtu: int
    def __init__(self, hop_field: _Optional[_Union[HopField, _Mapping]] = ..., ingress_mtu: _Optional[int] = ...) -> None: ...

class HopField(_message.Message):
    __slots__ = ["egress", "exp_time", "ingress", "mac"]
    EGRESS_FIELD_NUMBER: _ClassVar[int]
    EXP_TIME_FIELD_NUMBER: _ClassVar[int]
    INGRESS_FIELD_NUMBER: _ClassVar[int]
    MAC_FIELD_NUMBER: _ClassVar[int]
    egress: int
    exp_time: int
    ingress: int
    mac: bytes
    def __init__(self, ingress: _Optional[int] = ..., egress: _Optional[int] = ..., exp_time: _Optional[int] = ..., mac: _Optional[bytes] = ...) -> None: ...

class PathSegment(_message.Message):
    __slots__ = ["as_entries", "segment_info"]
    AS_ENTRIES_FIELD_NUMBER: _ClassVar[int]
    SEGMENT_INFO_FIELD_NUMBER: _ClassVar[int]
    as_entries: _containers.RepeatedCompositeFieldContainer[ASEntry]
    segment_info: bytes
    def __init__(self, segment_info: _Optional[bytes] = ..., as_entries: _Optional[_Iterable[_Union[ASEntry, _Mapping]]] = ...) -> None: ...

class PathSegmentExtensions(_message.Message):
    __slots__ = []
    def __init__(self) -> None: ...

class PathSegmentUnsignedExtensions(_message.Message):
    __slots__ = []
    def __init__(self) -> None: ...

class PeerEntry(_message.Message):
    __slots__ = ["hop_field", "peer_interface", "peer_isd_as", "peer_mtu"]
    HOP_FIELD_FIELD_NUMBER: _ClassVar[int]
    PEER_INTERFACE_FIELD_NUMBER: _ClassVar[int]
    PEER_ISD_AS_FIELD_NUMBER: _ClassVar[int]
    PEER_MTU_FIELD_NUMBER: _ClassVar[int]
    hop_field: HopField
    peer_interface: int
    peer_isd_as: int
    peer_mtu: int
    def __init__(self, peer_isd_as: _Optional[int] = ..., peer_interface: _Optional[int] = ..., peer_mtu: _Optional[int] = ..., hop_field: _Optional[_Union[HopField, _Mapping]] = ...) -> None: ...

class SegmentInformation(_message.Message):
    __slots__ = ["segment_id", "timestamp"]
    SEGMENT_ID_FIELD_NUMBER: _ClassVar[int]
    TIMESTAMP_FIELD_NUMBER: _ClassVar[int]
    segment_id: int
    timestamp: int
    def __init__(self, timestamp: _Optional[int] = ..., segment_id: _Optional[int] = ...) -> None: ...

class Segments(_message.Message):
    __slots__ = ["segments"]
    SEGMENTS_FIELD_NUMBER: _ClassVar[int]
    segments: _containers.RepeatedCompositeFieldContainer[PathSegment]
    def __init__(self, segments: _Optional[_Iterable[_Union[PathSegment, _Mapping]]] = ...) -> None: ...

class SegmentsRegistrationRequest(_message.Message):
    __slots__ = ["segments"]
    class SegmentsEntry(_message.Message):
        __slots__ = ["key", "value"]
        KEY_FIELD_NUMBER: _ClassVar[int]
        VALUE_FIELD_NUMBER: _ClassVar[int]
        key: int
        value: Segments
        def __init__(self, key: _Optional[int] = ..., value: _Optional[_Union[Segments, _Mapping]] = ...) -> None: ...
    SEGMENTS_FIELD_NUMBER: _ClassVar[int]
    segments: _containers.MessageMap[int, Segments]
    def __init__(self, segments: _Optional[_Mapping[int, Segments]] = ...) -> None: ...

class SegmentsRequest(_message.Message):
    __slots__ = ["dst_isd_as", "src_isd_as"]
    DST_ISD_AS_FIELD_NUMBER: _ClassVar[int]
    SRC_ISD_AS_FIELD_NUMBER: _ClassVar[int]
    dst_isd_as: int
    src_isd_as: int
    def __init__(self, src_isd_as: _Optional[int] = ..., dst_isd_as: _Optional[int] = ...) -> None: ...

class SegmentsResponse(_message.Message):
    __slots__ = ["segments"]
    class SegmentsEntry(_message.Message):
        __slots__ = ["key", "value"]
        KEY_FIELD_NUMBER: _ClassVar[int]
        VALUE_FIELD_NUMBER: _ClassVar[int]
        key: int
        value: Segments
        def __init__(self, key: _Optional[int] = ..., value: _Optional[_Union[Segments, _Mapping]] = ...) -> None: ...
    SEGMENTS_FIELD_NUMBER: _ClassVar[int]
    segments: _containers.MessageMap[int, Segments]
    def __init__(self, segments: _Optional[_Mapping[int, Segments]] = ...) -> None: ...

class SignedMessage(_message.Message):
    __slots__ = ["header_and_body", "signature"]
    HEADER_AND_BODY_FIELD_NUMBER: _ClassVar[int]
    SIGNATURE_FIELD_NUMBER: _ClassVar[int]
    header_and_body: bytes
    signature: bytes
    def __init__(self, header_and_body: _Optional[bytes] = ..., signature: _Optional[bytes] = ...) -> None: ...

class SegmentType(int, metaclass=_enum_type_wrapper.EnumTypeWrapper):
    __slots__ = []
