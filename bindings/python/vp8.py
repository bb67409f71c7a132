"""VP8 decoding from Python, by the shared library libvp8.

Not proved: the whole file. The library is; this module passes it pointers and lengths (`_pointer`, `Picture`), which it
trusts. A lock in each object keeps two threads out of one handle.

    import vp8

    with vp8.Decoder() as decoder:
        for packet in vp8.packets(open('film.ivf', 'rb').read()):
            picture = decoder.decode(packet)
            if picture:
                print(picture.width, picture.height, picture.y[0, 0])

    with vp8.Stream(open('film.ivf', 'rb').read()) as stream:
        picture = stream[5]

    with vp8.Stream() as stream:        # a file that grows
        stream.feed(piece)
        picture = stream.picture_at(len(stream) - 1)

    picture = vp8.webp_picture(open('photo.webp', 'rb').read())

The library is the file that the environment variable VP8_LIBRARY names, or libvp8.so.0 as the system finds it.
"""
import collections
import contextlib
import ctypes
import os
import threading

__all__ = ['Decoder', 'Error', 'Frame', 'LentPicture', 'PacketInfo', 'Picture', 'Stream', 'StreamInfo', 'packets',
           'peek', 'webp_file', 'webp_packet', 'webp_picture', 'DEFAULT_MAX_PIXELS',
           'OK', 'HIDDEN', 'TRUNCATED', 'VERSION', 'START_CODE', 'SIZE', 'TOO_LARGE', 'NO_REFERENCE',
           'FIRST_PARTITION', 'PARTITION_TABLE', 'PARTITION', 'SIGNATURE', 'CODEC', 'TOO_MANY', 'PACKET_TOO_LARGE',
           'TORN', 'ENDED', 'LOSSLESS', 'ANIMATED', 'NOT_KEY', 'TOO_LONG', 'CLOSED', 'MEMORY', 'LIMITS', 'NO_PICTURE',
           'NO_PACKET', 'LAST', 'GOLDEN', 'ALTREF']

# The numbers of include/vp8.h. PARTITION + n is token partition n.
OK, HIDDEN = 0, 1
TRUNCATED, VERSION, START_CODE, SIZE, TOO_LARGE, NO_REFERENCE, FIRST_PARTITION, PARTITION_TABLE = range(16, 24)
SIGNATURE, CODEC, TOO_MANY, PACKET_TOO_LARGE, TORN, ENDED, LOSSLESS, ANIMATED, NOT_KEY = range(32, 41)
TOO_LONG = 49
CLOSED, OPEN, MEMORY, LIMITS, DIMENSIONS, NO_PICTURE, NO_PACKET, BUFFER = range(64, 72)
PARTITION = 256

# The reference frames.
LAST, GOLDEN, ALTREF = 1, 2, 3

DEFAULT_MAX_PIXELS = 16777216


class _Handle(ctypes.Structure):
    _fields_ = [('in_use', ctypes.c_uint32), ('state', ctypes.c_void_p)]


class _StreamInfo(ctypes.Structure):
    _fields_ = [(name, ctypes.c_uint32) for name in ('width', 'height', 'rate', 'scale', 'packets', 'fault')]


class _PacketInfo(ctypes.Structure):
    _fields_ = [(name, ctypes.c_uint32) for name in ('key', 'shown', 'width', 'height')]


class _Frame(ctypes.Structure):
    _fields_ = [(name, ctypes.c_uint32) for name in (
        'key', 'version', 'shown', 'width', 'height', 'horizontal_scale', 'vertical_scale', 'quantiser',
        'refreshes_last', 'refreshes_golden', 'refreshes_altref', 'corrupt')]


class _LentPlane(ctypes.Structure):
    _fields_ = [('at', ctypes.c_void_p), ('stride', ctypes.c_size_t)]


class _LentPicture(ctypes.Structure):
    _fields_ = [('width', ctypes.c_uint32), ('height', ctypes.c_uint32)] + [(name, _LentPlane) for name in 'yuv']


def _load():
    library = ctypes.CDLL(os.environ.get('VP8_LIBRARY') or 'libvp8.so.0')
    handle, size, number = ctypes.POINTER(_Handle), ctypes.c_size_t, ctypes.c_uint32
    memory, numbers = ctypes.c_void_p, ctypes.POINTER(ctypes.c_uint32)
    declarations = {
        'vp8_status_name': (size, [number, memory, size]),
        'vp8_webp_packet': (number, [memory, size, ctypes.POINTER(size), ctypes.POINTER(size)]),
        'vp8_webp_file_size': (number, [memory, size, ctypes.POINTER(size)]),
        'vp8_webp_file': (number, [memory, size, memory, size]),
        'vp8_peek': (number, [memory, size, ctypes.POINTER(_PacketInfo)]),
        'vp8_decoder_new': (number, [handle, number]),
        'vp8_decoder_decode': (number, [handle, memory, size]),
        'vp8_decoder_decode_keeping': (number, [handle, memory, size]),
        'vp8_decoder_frame': (number, [handle, ctypes.POINTER(_Frame)]),
        'vp8_decoder_size': (number, [handle, numbers, numbers]),
        'vp8_decoder_copy': (number, [handle] + [memory, size, size] * 3),
        'vp8_decoder_lend': (number, [handle, ctypes.POINTER(_LentPicture)]),
        'vp8_decoder_corrupt': (number, [handle, numbers]),
        'vp8_decoder_reference_size': (number, [handle, numbers, numbers]),
        'vp8_decoder_reference': (number, [handle, number] + [memory, size, size] * 3),
        'vp8_decoder_free': (None, [handle]),
        'vp8_stream_new': (number, [handle, memory, size]),
        'vp8_stream_new_empty': (number, [handle]),
        'vp8_stream_feed': (number, [handle, memory, size]),
        'vp8_stream_finish': (number, [handle]),
        'vp8_stream_get_info': (number, [handle, ctypes.POINTER(_StreamInfo)]),
        'vp8_stream_picture_at': (number, [handle, number]),
        'vp8_stream_size': (number, [handle, numbers, numbers]),
        'vp8_stream_copy_i420': (number, [handle, memory, size]),
        'vp8_stream_free': (None, [handle]),
    }
    for name, (result, arguments) in declarations.items():
        function = getattr(library, name)
        function.restype, function.argtypes = result, arguments
    return library


_library = _load()


class Error(Exception):
    """A call is refused, or a packet can't be decoded. `status` is the number of vp8.h, `name` its name."""

    def __init__(self, status):
        name = ctypes.create_string_buffer(32)
        _library.vp8_status_name(status, name, len(name) - 1)
        self.status, self.name = status, name.value.decode('ascii')
        super().__init__(self.name)


def _check(status):
    if status != OK:
        raise Error(status)


def _pointer(data):
    """The bytes of an object that has the buffer protocol, and their length. They live as long as the first result."""
    data = data if isinstance(data, bytes) else memoryview(data).tobytes()
    return ctypes.c_char_p(data), len(data)


PacketInfo = collections.namedtuple('PacketInfo', 'key shown width height')
PacketInfo.__doc__ = """What the first bytes of a packet say. Width and height are those of a key packet, else 0."""

Frame = collections.namedtuple('Frame', [name for name, _ in _Frame._fields_])
Frame.__doc__ = """Facts about the frame of a packet. The scales are the upscaling codes of a key frame, else 0.

`corrupt` says whether a partition was read past its end, where zeros are read: no other damage is told."""
_TRUTHS = ('key', 'shown', 'refreshes_last', 'refreshes_golden', 'refreshes_altref', 'corrupt')


def _tuple_of(kind, structure, truths):
    """A named tuple of a structure's fields; those in `truths` are bools."""
    values = {name: getattr(structure, name) for name in kind._fields}
    return kind(**{name: bool(value) if name in truths else value for name, value in values.items()})


def peek(packet):
    """The PacketInfo of a packet (bytes or a buffer), from its first bytes: 10 of a key packet, 3 of others.

    Raises Error: TRUNCATED, VERSION, START_CODE, SIZE."""
    info = _PacketInfo()
    _check(_library.vp8_peek(*_pointer(packet), info))
    return _tuple_of(PacketInfo, info, ('key', 'shown'))


class Picture:
    """A picture in memory of its own. `data` is a bytearray of I420: Y, U and V, each row after row without padding.

    `y`, `u` and `v` are views into it with two dimensions, rows first: `picture.y[row, column]`."""

    def __init__(self, width, height):
        self.width, self.height = width, height
        chroma_width, chroma_height = (width + 1) // 2, (height + 1) // 2
        luma, chroma = width * height, chroma_width * chroma_height
        self.data = bytearray(luma + 2 * chroma)
        view = memoryview(self.data)
        self.y = view[:luma].cast('B', (height, width))
        self.u = view[luma:luma + chroma].cast('B', (chroma_height, chroma_width))
        self.v = view[luma + chroma:].cast('B', (chroma_height, chroma_width))

    def __repr__(self):
        return f'<vp8.Picture {self.width}x{self.height}>'

    def _address(self):
        return ctypes.addressof(ctypes.c_char.from_buffer(self.data))


class _Lock:
    """A lock that a thread takes once: a second time, in the block of `lend`, raises RuntimeError, without waiting."""

    def __init__(self):
        self._lock, self._owner = threading.Lock(), None

    def __enter__(self):
        if self._owner == threading.get_ident():
            raise RuntimeError('the picture is lent: no call of its decoder in the block')
        self._lock.acquire()
        self._owner = threading.get_ident()

    def __exit__(self, *_):
        self._owner = None
        self._lock.release()


class _Closing:
    """What decoders and streams share: a handle, its lock, and closing."""

    def __init__(self):
        self._handle, self._lock = _Handle(), _Lock()

    def close(self):
        """Frees the memory. Later calls raise Error with the status CLOSED."""
        with self._lock:
            self._free(self._handle)

    def __enter__(self):
        return self

    def __exit__(self, *_):
        self.close()

    def __del__(self):
        if hasattr(self, '_handle'):
            self._free(self._handle)

    def __copy__(self):
        raise TypeError('a handle is never copied')

    def __deepcopy__(self, _):
        raise TypeError('a handle is never copied')

    def __reduce__(self):
        raise TypeError('a handle is never copied')

    def _new_picture(self, size):
        width, height = ctypes.c_uint32(), ctypes.c_uint32()
        _check(size(self._handle, width, height))
        return Picture(width.value, height.value)


class Decoder(_Closing):
    """Decodes packets, one after another. Pictures of more than `max_pixels` pixels are refused.

    `max_pixels` is 1 to 268,402,689."""

    _free = staticmethod(_library.vp8_decoder_free)

    def __init__(self, max_pixels=DEFAULT_MAX_PIXELS):
        super().__init__()
        if not 0 <= max_pixels < 1 << 32:
            raise Error(LIMITS)
        _check(_library.vp8_decoder_new(self._handle, max_pixels))

    def decode(self, packet):
        """Decodes a packet (bytes or a buffer). Returns its Picture, or None if it shows none.

        Raises Error if the packet can't be decoded. Packets that are not key packets then fail with NO_REFERENCE until
        the next key packet. A packet of no bytes shows the last picture again."""
        return self._decode(_library.vp8_decoder_decode, packet)

    def decode_keeping(self, packet):
        """Decodes a packet as decode does, but goes on after damage.

        A packet that can't be decoded raises Error and changes nothing: the packets after it are decoded as if it had
        not come."""
        return self._decode(_library.vp8_decoder_decode_keeping, packet)

    @property
    def frame(self):
        """The Frame of the packet decoded last.

        None if that packet had no bytes or raised Error, and before the first one."""
        frame = _Frame()
        with self._lock:
            status = _library.vp8_decoder_frame(self._handle, frame)
        if status == NO_PICTURE:
            return None
        _check(status)
        return _tuple_of(Frame, frame, _TRUTHS)

    def _decode(self, call, packet):
        pointer, length = _pointer(packet)
        with self._lock:
            status = call(self._handle, pointer, length)
            if status == HIDDEN:
                return None
            _check(status)
            picture = self._new_picture(_library.vp8_decoder_size)
            _check(_library.vp8_decoder_copy(self._handle, *_planes(picture)))
            return picture

    @property
    def is_corrupt(self):
        """Whether a partition of the packet decoded last was read past its end, where zeros are read.

        That tells no other damage: changed bytes, or a lost end, may give another picture that is read within the
        partitions. Nor is it always damage: zeros at a partition's end may be left out, and a partition that begins
        with 255, as no encoder's does, counts as one byte. False if that packet had no bytes or raised Error, and
        before the first one."""
        corrupt = ctypes.c_uint32()
        with self._lock:
            _check(_library.vp8_decoder_corrupt(self._handle, corrupt))
        return bool(corrupt.value)

    @contextlib.contextmanager
    def lend(self):
        """Lends the picture that the last packet showed, without a copy, to the block of a `with` statement.

        It is a LentPicture, whose planes are read-only views of two dimensions: `lent.y[row, column]`. Rows may be
        longer than the picture is wide. The views end with the block; a call of the decoder in it raises RuntimeError.
        Raises Error: NO_PICTURE."""
        lent = _LentPicture()
        with self._lock:
            _check(_library.vp8_decoder_lend(self._handle, lent))
            width, height = lent.width, lent.height
            rows = {'y': height, 'u': (height + 1) // 2, 'v': (height + 1) // 2}
            views = [_view(getattr(lent, name), rows[name]) for name in 'yuv']
            try:
                yield LentPicture(width, height, *views)
            finally:
                for view in views:
                    view.release()

    def reference(self, number):
        """A copy of a reference frame, LAST, GOLDEN or ALTREF, as a Picture.

        Raises Error: NO_PICTURE before the first key packet, and after a packet that `decode` refused."""
        if number not in (LAST, GOLDEN, ALTREF):
            raise Error(NO_PICTURE)
        with self._lock:
            picture = self._new_picture(_library.vp8_decoder_reference_size)
            _check(_library.vp8_decoder_reference(self._handle, number, *_planes(picture)))
            return picture


LentPicture = collections.namedtuple('LentPicture', 'width height y u v')
LentPicture.__doc__ = """A picture in the decoder's memory. Its views have rows of whole macroblocks."""


def _view(plane, rows):
    """A read-only view of a plane: rows first. Planes hold whole macroblocks, so the last row has its whole stride."""
    memory = (ctypes.c_uint8 * (plane.stride * rows)).from_address(plane.at)
    return memoryview(memory).cast('B').cast('B', (rows, plane.stride)).toreadonly()


def _planes(picture):
    """Addresses, lengths and strides of a picture's planes, as the library takes them."""
    luma, chroma, half = picture.y.nbytes, picture.u.nbytes, (picture.width + 1) // 2
    start = picture._address()
    return start, luma, picture.width, start + luma, chroma, half, start + luma + chroma, chroma, half


StreamInfo = collections.namedtuple('StreamInfo', 'width height rate scale packets fault')
StreamInfo.__doc__ = """What is known of a file so far.

Width and height are those of its head. There are `rate` / `scale` pictures a second. `packets` counts the whole ones.
`fault` is OK, or why no more are read: SIGNATURE to TORN, and TORN only after the end is marked."""


class Stream(_Closing):
    """An IVF file in memory. `stream[n]` is the picture of packet n, or None if it shows none.

    `Stream(data)` has a whole file. `Stream()` has no bytes: `feed` takes them, piece by piece, and `finish` marks the
    end of the file; all else works at any time between. Packets asked for in order are decoded once each; in another
    order they are decoded from the last key packet on."""

    _free = staticmethod(_library.vp8_stream_free)

    def __init__(self, data=None):
        super().__init__()
        if data is None:
            _check(_library.vp8_stream_new_empty(self._handle))
        else:
            _check(_library.vp8_stream_new(self._handle, *_pointer(data)))

    def feed(self, data):
        """Takes the next bytes of the file (bytes or a buffer).

        Raises Error: the file's fault, SIGNATURE to PACKET_TOO_LARGE, after which no bytes are taken; ENDED after the
        end was marked; MEMORY, after which the same bytes may be fed again."""
        pointer, length = _pointer(data)
        with self._lock:
            _check(_library.vp8_stream_feed(self._handle, pointer, length))

    def finish(self):
        """Marks the end of the file. Raises Error if the file has a fault: SIGNATURE to TORN. May be called again."""
        with self._lock:
            _check(_library.vp8_stream_finish(self._handle))

    @property
    def info(self):
        """The StreamInfo of the file so far."""
        info = _StreamInfo()
        with self._lock:
            _check(_library.vp8_stream_get_info(self._handle, info))
        return StreamInfo(*(getattr(info, name) for name in StreamInfo._fields))

    def __len__(self):
        return self.info.packets

    def picture_at(self, number):
        """Decodes packet `number`. Returns its Picture, or None if it shows none.

        Raises Error: NO_PACKET if the file has no such packet, or not yet; else as Decoder.decode."""
        if not 0 <= number < 1 << 32:
            raise Error(NO_PACKET)
        with self._lock:
            status = _library.vp8_stream_picture_at(self._handle, number)
            if status == HIDDEN:
                return None
            _check(status)
            picture = self._new_picture(_library.vp8_stream_size)
            _check(_library.vp8_stream_copy_i420(self._handle, picture._address(), len(picture.data)))
            return picture

    def __getitem__(self, number):
        """As picture_at, but raises IndexError if the file has no such packet."""
        try:
            return self.picture_at(number)
        except Error as error:
            if error.status == NO_PACKET:
                raise IndexError(number) from None
            raise


def packets(data):
    """The whole packets of an IVF file, as views of `data`. The head is skipped, and not checked."""
    view, at = memoryview(data).cast('B'), 32
    while len(view) - at >= 12:
        length = int.from_bytes(view[at:at + 4], 'little')
        if len(view) - at - 12 < length:
            return
        yield view[at + 12:at + 12 + length]
        at += 12 + length


def webp_packet(data):
    """The key packet of a WebP file (bytes or a buffer), simple or extended, as a view of `data`.

    Alpha, colour profiles and metadata are passed over. Raises Error: SIGNATURE, TORN, LOSSLESS, ANIMATED, NO_PICTURE,
    NOT_KEY, HIDDEN."""
    start, length = ctypes.c_size_t(), ctypes.c_size_t()
    _check(_library.vp8_webp_packet(*_pointer(data), start, length))
    return memoryview(data).cast('B')[start.value:start.value + length.value]


def webp_file(packet):
    """The WebP file of a key packet, as bytes. Only the packet's first bytes are looked at.

    Raises Error: NOT_KEY, HIDDEN, TOO_LONG."""
    size, (pointer, length) = ctypes.c_size_t(), _pointer(packet)
    _check(_library.vp8_webp_file_size(pointer, length, size))
    file = ctypes.create_string_buffer(size.value)
    _check(_library.vp8_webp_file(pointer, length, file, size.value))
    return file.raw


def webp_picture(data, max_pixels=DEFAULT_MAX_PIXELS):
    """The Picture of a WebP file. Raises Error as webp_packet and Decoder.decode do."""
    with Decoder(max_pixels) as decoder:
        return decoder.decode(webp_packet(data))
