/* vp8: decode and encode VP8 video (RFC 6386), from C.
 *
 * Each function is a proved one of the Rattle libraries: it does what its comment says whatever the bytes are, reads
 * and writes only the memory that it is handed, always returns, and never ends the process. The contracts are in
 * crates/vp8_c/src. Two things are tested and not proved: that free frees, and how long a lent picture stays.
 *
 * The caller must ensure:
 *   - No pointer is null, even if the length beside it is 0, and each points to as many bytes as its length says.
 *   - Memory that a call writes to is passed once: two buffers of one call do not overlap, nor a buffer and a handle.
 *   - A handle is used by one thread at a time, is never copied, and its fields are never written.
 *   - malloc, realloc and free come from one allocator, and give blocks aligned as C's do. No call is made from a
 *     signal handler, or from the forked child of a process with threads.
 *
 * A handle (vp8_decoder, vp8_encoder, vp8_stream) lies in the caller's memory, and is closed before `new` and after
 * `free`:
 *
 *     vp8_decoder decoder = VP8_INIT;
 *     vp8_status status = vp8_decoder_new(&decoder, 16777216);
 *
 * A call with a closed handle is refused with VP8_CLOSED, and `new` with an open one with VP8_OPEN; neither changes
 * anything. `free` of a closed handle does nothing.
 *
 * Pictures are I420: a plane of luma (Y) as large as the picture, and two of colour (U, V), whose sides are half of
 * its, rounded up. A plane in the caller's memory is a pointer, a length and a stride, all in bytes: row r begins r
 * strides after the pointer. It fits if the stride is no less than the plane's width and the last row ends within the
 * length; a plane that is too small is refused with VP8_BUFFER, and nothing is written.
 */
#ifndef VP8_H
#define VP8_H

#include <stddef.h>
#include <stdint.h>

#ifdef __cplusplus
extern "C" {
#endif

/* The result of a call: every number above VP8_HIDDEN is a fault or a refusal. vp8_status_name gives the names. */
typedef uint32_t vp8_status;

enum {
  /* Success. For a packet: it is decoded, and its picture is shown. */
  VP8_OK = 0,
  /* The packet is decoded, and no picture is shown for it. Of a WebP file: its packet is not to be shown. */
  VP8_HIDDEN = 1,

  /* The packet can't be decoded. */
  VP8_TRUNCATED = 16,       /* fewer than 3 bytes, or fewer than 10 of a key packet */
  VP8_VERSION = 17,         /* a version over 3 */
  VP8_START_CODE = 18,      /* a key packet without the start code 9d 01 2a */
  VP8_SIZE = 19,            /* a side of 0 */
  VP8_TOO_LARGE = 20,       /* more pixels than the decoder allows */
  VP8_NO_REFERENCE = 21,    /* an inter packet without a key packet before it; decode: or a fault since */
  VP8_FIRST_PARTITION = 22, /* the first partition passes the end of the packet */
  VP8_PARTITION_TABLE = 23, /* the table of the token partitions' sizes passes the end */
  VP8_PARTITION = 256,      /* VP8_PARTITION + n: token partition n, from 0, is the first that passes the end */

  /* The file can't be read on. */
  VP8_SIGNATURE = 32,        /* its head doesn't begin with DKIF; of a WebP file, with RIFF, its size, and WEBP */
  VP8_CODEC = 33,            /* its head doesn't say VP80 */
  VP8_TOO_MANY = 34,         /* it has more packets than 1,048,576 */
  VP8_PACKET_TOO_LARGE = 35, /* a packet is larger than 16,777,216 bytes */
  VP8_TORN = 36,             /* it ends inside its head or a packet; a WebP file: before a size in it says */
  VP8_ENDED = 37,            /* bytes are fed after its end was marked */
  VP8_LOSSLESS = 38,         /* the picture of a WebP file is compressed losslessly */
  VP8_ANIMATED = 39,         /* a WebP file is an animation */
  VP8_NOT_KEY = 40,          /* the packet of a WebP file is not a key packet */

  /* The encoder can't be opened, or the frame not encoded. */
  VP8_SETTINGS = 48, /* a setting is out of its range */
  VP8_TOO_LONG = 49, /* a partition of the packet, or the packet of a WebP file, is too long for the format */

  /* The call is refused. */
  VP8_CLOSED = 64,     /* the handle is closed, or of another kind */
  VP8_OPEN = 65,       /* the handle is open already */
  VP8_MEMORY = 66,     /* memory was refused */
  VP8_LIMITS = 67,     /* max_pixels is 0, or over 268,402,689 */
  VP8_DIMENSIONS = 68, /* a side is 0, or over 16,383 */
  VP8_NO_PICTURE = 69, /* there is nothing to give: no picture is shown, no frame is kept, or a file has no picture */
  VP8_NO_PACKET = 70,  /* the file has no packet of this number */
  VP8_BUFFER = 71      /* a length or a stride is too small */
};

/* Copies the name of a status, as "TooLarge" or "Partition 2", followed by a 0, to `out` if there is room for both;
 * else `out` is unchanged. Returns the name's length without the 0, which is 0 for a number that is no status; no name
 * has more than 14 characters, and token partitions have names up to 7. */
size_t vp8_status_name(vp8_status status, uint8_t *out, size_t out_len);

/* A closed handle. */
#define VP8_INIT { 0, 0 }

/* ---- what a packet's first bytes say */

typedef struct vp8_packet_info {
  uint32_t key;    /* 1: a key packet, whose frame needs no packet before it */
  uint32_t shown;  /* 1: its picture is shown */
  uint32_t width;  /* the size in pixels of a key packet's picture; 0 for other packets */
  uint32_t height;
} vp8_packet_info;

/* Reads the first bytes of a packet: 10 of a key packet, 3 of others. Bytes after them are not read.
 * VP8_TRUNCATED, VP8_VERSION, VP8_START_CODE, VP8_SIZE: nothing is written. */
vp8_status vp8_peek(const uint8_t *packet, size_t packet_len, vp8_packet_info *info);

/* ---- lossy WebP files, whose picture is one key packet */

/* Finds the packet of a WebP file, simple or extended: it is the *len bytes from file + *start on. vp8_decoder_decode
 * decodes it. Alpha, colour profiles and metadata are passed over.
 * VP8_SIGNATURE, VP8_TORN, VP8_LOSSLESS, VP8_ANIMATED; VP8_NO_PICTURE: no chunk is a picture; VP8_NOT_KEY, VP8_HIDDEN:
 * the packet is no key packet, or not to be shown; the first of these that the bytes reveal: nothing is written. */
vp8_status vp8_webp_packet(const uint8_t *file, size_t file_len, size_t *start, size_t *len);

/* The length in bytes of the WebP file of a key packet.
 * VP8_NOT_KEY, VP8_HIDDEN, VP8_TOO_LONG: the packet has no file, and nothing is written. */
vp8_status vp8_webp_file_size(const uint8_t *packet, size_t packet_len, size_t *size);

/* Copies the WebP file of a key packet, which browsers show; bytes after it are unchanged. Of the packet only the first
 * bytes are looked at: VP8_OK does not say that it can be decoded.
 * VP8_NOT_KEY, VP8_HIDDEN, VP8_TOO_LONG, VP8_BUFFER: nothing is written. */
vp8_status vp8_webp_file(const uint8_t *packet, size_t packet_len, uint8_t *out, size_t out_len);

/* ---- decoding packets, one after another */

typedef struct vp8_decoder {
  uint32_t in_use;
  void *state;
} vp8_decoder;

/* Opens a decoder that refuses pictures of more pixels (width times height) than max_pixels, from 1 to 268,402,689.
 * VP8_OPEN, VP8_LIMITS, VP8_MEMORY. */
vp8_status vp8_decoder_new(vp8_decoder *decoder, uint32_t max_pixels);

/* Decodes a packet, which is one frame: a key packet first, then each packet in order. A packet of no
 * bytes is a frame that its sender dropped: the last shown picture is shown again.
 * VP8_OK: its picture is shown, and vp8_decoder_copy gives it. VP8_HIDDEN: it is not to be shown.
 * VP8_TRUNCATED to VP8_PARTITION_TABLE, VP8_PARTITION + n: it can't be decoded; then inter packets are refused, by
 * VP8_NO_REFERENCE or a fault that comes before it, until a key packet is decoded. VP8_MEMORY: the decoder is as
 * before, and the packet may be tried again. VP8_CLOSED. */
vp8_status vp8_decoder_decode(vp8_decoder *decoder, const uint8_t *packet, size_t packet_len);

/* Decodes a packet as vp8_decoder_decode does, but goes on after damage: a packet that can't be decoded shows no
 * picture and changes nothing else. The packets after it are decoded as if it had not come, from the pictures before
 * it. The last shown picture is kept for a packet of no bytes. Both calls may be made for one decoder. */
vp8_status vp8_decoder_decode_keeping(vp8_decoder *decoder, const uint8_t *packet, size_t packet_len);

typedef struct vp8_frame {
  uint32_t key;              /* 1: a key frame */
  uint32_t version;          /* 0 to 3 */
  uint32_t shown;            /* 1: its picture is shown */
  uint32_t width;            /* the size of its picture in pixels */
  uint32_t height;
  uint32_t horizontal_scale; /* the upscaling codes of a key frame, 0 to 3: they don't affect decoding; 0 for others */
  uint32_t vertical_scale;
  uint32_t quantiser;        /* the quantiser index, 0 to 127 */
  uint32_t refreshes_last;   /* 1: its picture becomes the last frame, golden, altref */
  uint32_t refreshes_golden;
  uint32_t refreshes_altref;
  uint32_t corrupt;          /* 1: a partition was read past its end; that tells no other damage: vp8_decoder_corrupt */
} vp8_frame;

/* Writes facts about the frame of the packet that was decoded last.
 * VP8_NO_PICTURE: there is no frame before the first packet, and after a packet of no bytes or one that could not be
 * decoded; VP8_CLOSED: nothing is written. */
vp8_status vp8_decoder_frame(vp8_decoder *decoder, vp8_frame *frame);

/* The size in pixels of the picture that the last packet showed. VP8_NO_PICTURE, VP8_CLOSED: nothing is written. */
vp8_status vp8_decoder_size(vp8_decoder *decoder, uint32_t *width, uint32_t *height);

/* Copies the picture that the last packet showed, row by row, and leaves each other byte of the buffers as it is.
 * VP8_NO_PICTURE, VP8_BUFFER, VP8_CLOSED: nothing is written. */
vp8_status vp8_decoder_copy(vp8_decoder *decoder,
                            uint8_t *y, size_t y_len, size_t y_stride,
                            uint8_t *u, size_t u_len, size_t u_stride,
                            uint8_t *v, size_t v_len, size_t v_stride);

/* A plane in the decoder's memory: row r begins r strides after `at`. */
typedef struct vp8_lent_plane {
  const uint8_t *at;
  size_t stride;
} vp8_lent_plane;

typedef struct vp8_lent_picture {
  uint32_t width;   /* in pixels; U and V have half of each side, rounded up */
  uint32_t height;
  vp8_lent_plane y, u, v;
} vp8_lent_picture;

/* Lends the picture that the last packet showed: nothing is copied. It is valid until the next call for this decoder,
 * and is only read: later frames are predicted from it. No bytes follow the last row but those of its stride.
 * VP8_NO_PICTURE, VP8_CLOSED: nothing is written. */
vp8_status vp8_decoder_lend(vp8_decoder *decoder, vp8_lent_picture *lent);

/* Writes 1 to *corrupt if a partition of the packet that was decoded last was read past its end, where zeros are read;
 * else 0, also if the last packet had no bytes or could not be decoded, and before the first one. Nothing else is told:
 * 0 does not say that the packet is whole, since changed bytes, or a lost end, may give another picture that is read
 * within the partitions; 1 does not say that the picture is damaged, since zeros at a partition's end may be left out,
 * and since a partition that begins with 255, as no encoder's does, counts as one byte.
 * Nor does it tell that a picture is predicted from a damaged one.
 * VP8_CLOSED: nothing is written. */
vp8_status vp8_decoder_corrupt(vp8_decoder *decoder, uint32_t *corrupt);

/* The reference frames, from which later frames are predicted. */
enum {
  VP8_LAST = 1,
  VP8_GOLDEN = 2,
  VP8_ALTREF = 3
};

/* The size in pixels of the reference frames, which is that of the frame that was decoded last. VP8_NO_PICTURE: there
 * are none before the first key packet, and after a packet that vp8_decoder_decode refused; VP8_CLOSED: nothing is
 * written. */
vp8_status vp8_decoder_reference_size(vp8_decoder *decoder, uint32_t *width, uint32_t *height);

/* Copies a reference frame as vp8_decoder_copy does. VP8_NO_PICTURE: there are none, or the number is none of the
 * three; VP8_BUFFER, VP8_CLOSED: nothing is written. */
vp8_status vp8_decoder_reference(vp8_decoder *decoder, uint32_t reference,
                                 uint8_t *y, size_t y_len, size_t y_stride,
                                 uint8_t *u, size_t u_len, size_t u_stride,
                                 uint8_t *v, size_t v_len, size_t v_stride);

/* Frees what the decoder holds, and closes it. */
void vp8_decoder_free(vp8_decoder *decoder);

/* ---- an IVF file in memory, whole or growing, whose pictures are asked for by number */

typedef struct vp8_stream {
  uint32_t in_use;
  void *state;
} vp8_stream;

/* What is known of a file so far. */
typedef struct vp8_stream_info {
  uint32_t width;   /* the width and height in pixels that the head says, which need not be a picture's */
  uint32_t height;
  uint32_t rate;    /* the head's rate and scale: rate / scale pictures a second */
  uint32_t scale;
  uint32_t packets; /* how many packets are whole; they are numbered from 0 */
  uint32_t fault;   /* VP8_OK, or why no more are read: VP8_SIGNATURE to VP8_TORN */
} vp8_stream_info;

/* Opens a stream, copies the bytes of a whole IVF file into it, and marks its end. Pictures have at most 16,777,216
 * pixels. vp8_stream_get_info reports what is wrong with the file; its whole packets can still be decoded.
 * VP8_OPEN, VP8_MEMORY: the stream is as before. */
vp8_status vp8_stream_new(vp8_stream *stream, const uint8_t *bytes, size_t bytes_len);

/* Opens a stream without any bytes, for a file that is still being written or received: vp8_stream_feed takes its
 * bytes, and vp8_stream_finish marks its end. The calls below may be made at any time between: they see the bytes so
 * far, and bytes that come later change no answer but VP8_NO_PACKET.
 * VP8_OPEN, VP8_MEMORY: the stream is as before. */
vp8_status vp8_stream_new_empty(vp8_stream *stream);

/* Copies the next bytes of the file, of any number. VP8_OK: they are taken, and the file has no fault so far.
 * VP8_SIGNATURE to VP8_PACKET_TOO_LARGE: the file's fault, which these bytes or earlier ones reveal; the packets before
 * it can still be decoded, and later bytes are refused with the same status. VP8_ENDED: the end of the file was marked,
 * and the stream is as before. VP8_MEMORY: the stream is as before, and the same bytes may be fed again. VP8_CLOSED. */
vp8_status vp8_stream_feed(vp8_stream *stream, const uint8_t *bytes, size_t bytes_len);

/* Marks the end of the file, after which no more bytes are taken. VP8_OK: it ends after its head or a whole packet.
 * VP8_SIGNATURE to VP8_TORN: the file's fault. Later calls return the same status. VP8_CLOSED. */
vp8_status vp8_stream_finish(vp8_stream *stream);

/* What is known of the file so far; all 0 but `fault`, where its head isn't whole or good. `fault` is VP8_TORN only
 * after the end was marked. VP8_CLOSED: nothing is written. */
vp8_status vp8_stream_get_info(vp8_stream *stream, vp8_stream_info *info);

/* Decodes packet n, and keeps its picture for the calls below. Packets asked for in order are decoded once each, by a
 * decoder that the stream keeps; in another order those from the last key packet up to n are decoded, or fewer.
 * VP8_OK, VP8_HIDDEN and the faults as vp8_decoder_decode's. VP8_NO_PACKET: the file has no such packet, or not yet.
 * VP8_MEMORY, VP8_CLOSED: the kept picture is unchanged. */
vp8_status vp8_stream_picture_at(vp8_stream *stream, uint32_t n);

/* The size in pixels of the picture that is kept. VP8_NO_PICTURE, VP8_CLOSED: nothing is written. */
vp8_status vp8_stream_size(vp8_stream *stream, uint32_t *width, uint32_t *height);

/* Copies the picture that is kept as Y, U and V, each row after row with nothing between: width * height bytes, and
 * twice ((width + 1) / 2) * ((height + 1) / 2). Bytes after them are unchanged.
 * VP8_NO_PICTURE, VP8_BUFFER, VP8_CLOSED: nothing is written. */
vp8_status vp8_stream_copy_i420(vp8_stream *stream, uint8_t *out, size_t out_len);

/* Frees what the stream holds, and closes it. */
void vp8_stream_free(vp8_stream *stream);

/* ---- encoding pictures, one after another */

typedef struct vp8_encoder {
  uint32_t in_use;
  void *state;
} vp8_encoder;

typedef struct vp8_settings {
  uint8_t qi;            /* the quantiser index, 0 to 127: 0 loses least */
  uint8_t level;         /* the loop filter's level, 0 to 63; 0 filters nothing */
  uint8_t sharpness;     /* the loop filter's sharpness, 0 to 7 */
  uint8_t simple;        /* not 0: the simple loop filter */
  uint32_t key_every;    /* frames from one key frame to the next, from 1; 1 makes each one a key frame */
  uint32_t golden_every; /* frames from one golden picture to the next; 0: none but the key frame's */
  uint8_t range;         /* the search range in whole pixels, 0 to 64 */
  uint8_t subpel;        /* not 0: vectors in quarter pixels */
  uint8_t partitions;    /* token partitions of a packet: 1, 2, 4 or 8 */
} vp8_settings;

/* Opens an encoder of pictures of this size in pixels; each side from 1 to 16,383.
 * VP8_OPEN, VP8_DIMENSIONS, VP8_SETTINGS, VP8_MEMORY. */
vp8_status vp8_encoder_new(vp8_encoder *encoder, uint32_t width, uint32_t height, const vp8_settings *settings);

/* Encodes a picture of the encoder's size as one packet, to be decoded after those before it, and keeps the packet and
 * the picture that decoders show for it.
 * VP8_TOO_LONG, VP8_MEMORY: nothing is kept, and the next frame is a key frame. VP8_BUFFER, VP8_CLOSED: nothing
 * changes. */
vp8_status vp8_encoder_encode(vp8_encoder *encoder,
                              const uint8_t *y, size_t y_len, size_t y_stride,
                              const uint8_t *u, size_t u_len, size_t u_stride,
                              const uint8_t *v, size_t v_len, size_t v_stride);

/* The length in bytes of the packet that is kept. VP8_NO_PICTURE, VP8_CLOSED: nothing is written. */
vp8_status vp8_encoder_packet_size(vp8_encoder *encoder, size_t *size);

/* Copies the packet that is kept; bytes after it are unchanged.
 * VP8_NO_PICTURE, VP8_BUFFER, VP8_CLOSED: nothing is written. */
vp8_status vp8_encoder_packet(vp8_encoder *encoder, uint8_t *out, size_t out_len);

/* Copies the picture that decoders show for that packet, as vp8_decoder_copy does. */
vp8_status vp8_encoder_reconstruction(vp8_encoder *encoder,
                                      uint8_t *y, size_t y_len, size_t y_stride,
                                      uint8_t *u, size_t u_len, size_t u_stride,
                                      uint8_t *v, size_t v_len, size_t v_stride);

/* The sum of the squares of the differences between the source's pixels and that picture's, of Y, U and V.
 * VP8_NO_PICTURE, VP8_CLOSED: nothing is written. */
vp8_status vp8_encoder_squared_error(vp8_encoder *encoder, uint64_t *error);

/* Frees what the encoder holds, and closes it. */
void vp8_encoder_free(vp8_encoder *encoder);

#ifdef __cplusplus
}
#endif

#endif
