/* Drives libvpx's VP9 encoder where vpxenc has no option for it:
 *   roi     region map: quantizer, filter, reference and skip features
 *   mild    the same with small values
 *   active  active map: blocks out of action, by skip and filter features
 *   scale   internal scaling switched in mid-stream; the render size stays
 *   third   the same; on the way back only the third reference has the old size
 *   shrink  the configured size changes in mid-stream, without a key frame
 *   chroma  quantizer deltas of the chroma planes
 *   flags   references and contexts updated or not, picture by picture
 *   layers  three spatial layers, one superframe per picture
 *   intra   two spatial layers, with an intra-only base picture
 *   joined  intra, without the pictures before the intra-only one
 *   intra10 intra in profile 2, with ten bits
 * usage: special MODE WIDTH HEIGHT FRAMES in.yuv out.ivf
 * in.yuv holds I420 pictures, of two bytes a sample for intra10. */
#include <stdint.h>
#include <stdio.h>
#include <stdlib.h>
#include <string.h>
#include <vpx/vp8cx.h>
#include <vpx/vpx_encoder.h>

enum { INTRA_AT = 4 };

static vpx_codec_ctx_t ctx;
static vpx_codec_enc_cfg_t cfg;
static vpx_svc_extra_cfg_t svc;
static const char *mode;

static int is(const char *name) { return strcmp(mode, name) == 0; }

static void need(int good, const char *what) {
  if (good) return;
  fprintf(stderr, "special: %s: %s\n", what, ctx.iface ? vpx_codec_error(&ctx) : "");
  exit(1);
}

static void put(FILE *out, uint64_t value, int bytes) {
  for (int i = 0; i < bytes; i++) fputc((value >> (8 * i)) & 255, out);
}

static void put_file_header(FILE *out, int width, int height, int frames) {
  fwrite("DKIF", 1, 4, out);
  put(out, 0, 2);
  put(out, 32, 2);
  fwrite("VP90", 1, 4, out);
  put(out, width, 2);
  put(out, height, 2);
  put(out, 30, 4);
  put(out, 1, 4);
  put(out, frames, 4);
  put(out, 0, 4);
}

static int spatial_layers(void) {
  if (is("layers")) return 3;
  return is("intra") || is("intra10") || is("joined") ? 2 : 1;
}

static vpx_img_fmt_t format(void) {
  return is("intra10") ? VPX_IMG_FMT_I42016 : VPX_IMG_FMT_I420;
}

static size_t picture_size(int width, int height) {
  size_t samples = (size_t)width * height * 3 / 2;
  return is("intra10") ? samples * 2 : samples;
}

static void set_ten_bits(void) {
  cfg.g_profile = 2;
  cfg.g_bit_depth = VPX_BITS_10;
  cfg.g_input_bit_depth = 10;
}

/* Each layer is half as wide and high as the next one. */
static void set_layers(int count) {
  cfg.ss_number_layers = count;
  cfg.ts_number_layers = 1;
  cfg.ts_rate_decimator[0] = 1;
  cfg.temporal_layering_mode = VP9E_TEMPORAL_LAYERING_MODE_NOLAYERING;
  for (int i = 0; i < count; i++) {
    cfg.ss_target_bitrate[i] = cfg.layer_target_bitrate[i] = 40 << i;
    svc.max_quantizers[i] = cfg.rc_max_quantizer;
    svc.min_quantizers[i] = cfg.rc_min_quantizer;
    svc.scaling_factor_num[i] = 1;
    svc.scaling_factor_den[i] = 1 << (count - 1 - i);
  }
}

static void start(int width, int height) {
  need(!vpx_codec_enc_config_default(vpx_codec_vp9_cx(), &cfg, 0), "defaults");
  cfg.g_w = width;
  cfg.g_h = height;
  cfg.g_threads = 1;
  cfg.g_timebase.num = 1;
  cfg.g_timebase.den = 30;
  cfg.g_lag_in_frames = 0;
  cfg.rc_end_usage = VPX_CBR;
  cfg.rc_target_bitrate = 150;
  cfg.rc_min_quantizer = 10;
  cfg.rc_max_quantizer = 56;
  cfg.kf_max_dist = 9999;
  if (is("intra10")) set_ten_bits();
  if (spatial_layers() > 1) set_layers(spatial_layers());
  int deep = is("intra10") ? VPX_CODEC_USE_HIGHBITDEPTH : 0;
  need(!vpx_codec_enc_init(&ctx, vpx_codec_vp9_cx(), &cfg, deep), "start");
  need(!vpx_codec_control(&ctx, VP8E_SET_CPUUSED, 7), "speed");
  need(!vpx_codec_control(&ctx, VP9E_SET_AQ_MODE, spatial_layers() > 1 ? 3 : 0), "aq");
  if (spatial_layers() == 1) return;
  need(!vpx_codec_control(&ctx, VP9E_SET_SVC, 1), "svc");
  need(!vpx_codec_control(&ctx, VP9E_SET_SVC_PARAMETERS, &svc), "svc parameters");
}

/* Vertical bands of the eight segments. */
static void set_region_map(int narrow) {
  static vpx_roi_map_t roi;
  static const int wide_q[8] = {0, -10, 20, -30, 40, -50, 60, 0};
  static const int small_q[8] = {0, -3, 4, -5, 6, -7, 8, 0};
  static const int wide_lf[8] = {0, 5, -12, 31, -33, 50, -63, 0};
  static const int small_lf[8] = {0, 5, -12, 31, -3, 1, -1, 0};
  static const int wide_ref[8] = {-1, -1, 1, -1, 2, -1, 3, -1};
  static const int small_ref[8] = {-1, -1, 1, -1, 1, -1, -1, -1};
  static const int skip[8] = {0, 0, 1, 0, 0, 0, 0, 1};
  roi.enabled = 1;
  roi.rows = (cfg.g_h + 7) / 8;
  roi.cols = (cfg.g_w + 7) / 8;
  if (!roi.roi_map) roi.roi_map = malloc(roi.rows * roi.cols);
  for (unsigned i = 0; i < roi.rows * roi.cols; i++)
    roi.roi_map[i] = (i % roi.cols) * 8 / roi.cols;
  memcpy(roi.delta_q, narrow ? small_q : wide_q, sizeof roi.delta_q);
  memcpy(roi.delta_lf, narrow ? small_lf : wide_lf, sizeof roi.delta_lf);
  memcpy(roi.ref_frame, narrow ? small_ref : wide_ref, sizeof roi.ref_frame);
  memcpy(roi.skip, skip, sizeof roi.skip);
  need(!vpx_codec_control(&ctx, VP9E_SET_ROI_MAP, &roi), "region map");
}

/* The left half stands still. */
static void set_active_map(int on) {
  static vpx_active_map_t map;
  map.rows = (cfg.g_h + 15) / 16;
  map.cols = (cfg.g_w + 15) / 16;
  unsigned char *cells = malloc(map.rows * map.cols);
  for (unsigned i = 0; i < map.rows * map.cols; i++) cells[i] = i % map.cols >= map.cols / 2;
  map.active_map = on ? cells : NULL;
  need(!vpx_codec_control(&ctx, VP8E_SET_ACTIVEMAP, &map), "active map");
  free(cells);
}

static void set_scale(VPX_SCALING_MODE across, VPX_SCALING_MODE down) {
  vpx_scaling_mode_t scale = {across, down};
  need(!vpx_codec_control(&ctx, VP8E_SET_SCALEMODE, &scale), "scale");
}

static void set_chroma(int delta) {
  need(!vpx_codec_control(&ctx, VP9E_SET_DELTA_Q_UV, delta), "chroma");
}

static void set_size(int width, int height) {
  cfg.g_w = width;
  cfg.g_h = height;
  need(!vpx_codec_enc_config_set(&ctx, &cfg), "size");
}

static void before_layers(int frame) {
  vpx_svc_layer_id_t id = {0};
  vpx_svc_spatial_layer_sync_t sync = {0};
  need(!vpx_codec_control(&ctx, VP9E_SET_SVC_LAYER_ID, &id), "layer id");
  if (is("layers") || frame != INTRA_AT) return;
  sync.spatial_layer_sync[0] = sync.spatial_layer_sync[1] = 1;
  sync.base_layer_intra_only = 1;
  need(!vpx_codec_control(&ctx, VP9E_SET_SVC_SPATIAL_LAYER_SYNC, &sync), "layer sync");
}

/* What changes before this picture. */
static void before(int frame, int width, int height) {
  if (spatial_layers() > 1) before_layers(frame);
  if (is("roi") && frame == 1) set_region_map(0);
  if (is("mild") && frame == 1) set_region_map(1);
  if (is("active") && frame == 2) set_active_map(1);
  if (is("active") && frame == 6) set_active_map(0);
  if ((is("scale") || is("third")) && frame == 3) set_scale(VP8E_THREEFIVE, VP8E_THREEFIVE);
  if ((is("scale") || is("third")) && frame == 6) set_scale(VP8E_NORMAL, VP8E_NORMAL);
  if (is("chroma") && frame == 0) set_chroma(-11);
  if (is("chroma") && frame == 3) set_chroma(15);
  if (is("shrink") && frame == 3) set_size(width / 2 + 1, height / 2 + 3);
  if (is("shrink") && frame == 6) set_size(width * 3 / 4, height);
}

/* What this picture may change for later ones. */
static vpx_enc_frame_flags_t flags(int frame) {
  static const vpx_enc_frame_flags_t all[8] = {
      0, VP8_EFLAG_NO_UPD_ENTROPY, VP8_EFLAG_NO_UPD_LAST, VP8_EFLAG_NO_UPD_GF, VP8_EFLAG_NO_UPD_ARF,
      VP8_EFLAG_NO_UPD_LAST | VP8_EFLAG_NO_UPD_GF | VP8_EFLAG_NO_UPD_ARF,
      VP8_EFLAG_NO_UPD_LAST | VP8_EFLAG_NO_UPD_GF, VP8_EFLAG_NO_UPD_GF | VP8_EFLAG_NO_UPD_ENTROPY};
  /* The scaled picture becomes golden too, so golden's size is gone as well. */
  if (is("third") && frame == 3) return VP8_EFLAG_NO_UPD_ARF;
  return is("flags") ? all[frame % 8] : 0;
}

/* A joined recording starts at the intra-only picture. */
static int left_out(int frame) { return is("joined") && frame < INTRA_AT; }

static void put_packet(FILE *out, const vpx_codec_cx_pkt_t *packet) {
  put(out, packet->data.frame.sz, 4);
  put(out, packet->data.frame.pts, 8);
  fwrite(packet->data.frame.buf, 1, packet->data.frame.sz, out);
}

static int take_packets(FILE *out, int frame) {
  vpx_codec_iter_t iter = NULL;
  const vpx_codec_cx_pkt_t *packet;
  int count = 0;
  while ((packet = vpx_codec_get_cx_data(&ctx, &iter))) {
    if (packet->kind != VPX_CODEC_CX_FRAME_PKT || left_out(frame)) continue;
    put_packet(out, packet);
    count++;
  }
  return count;
}

/* Codes one picture; smaller sizes see its top left part. */
static int code_picture(FILE *in, FILE *out, int frame, int width, int height) {
  static unsigned char picture[1 << 20];
  size_t size = picture_size(width, height);
  need(size <= sizeof picture && fread(picture, 1, size, in) == size, "input");
  vpx_image_t *image = vpx_img_wrap(NULL, format(), width, height, 1, picture);
  need(!vpx_img_set_rect(image, 0, 0, cfg.g_w, cfg.g_h), "part");
  need(!vpx_codec_encode(&ctx, image, frame, 1, flags(frame), VPX_DL_REALTIME), "encode");
  vpx_img_free(image);
  return take_packets(out, frame);
}

int main(int argc, char **argv) {
  if (argc != 7) return fprintf(stderr, "usage: special MODE WIDTH HEIGHT FRAMES in.yuv out.ivf\n"), 2;
  mode = argv[1];
  int width = atoi(argv[2]), height = atoi(argv[3]), frames = atoi(argv[4]);
  FILE *in = fopen(argv[5], "rb"), *out = fopen(argv[6], "wb");
  need(in && out, "files");
  start(width, height);
  put_file_header(out, width, height, 0);
  int packets = 0;
  for (int i = 0; i < frames; i++) {
    before(i, width, height);
    packets += code_picture(in, out, i, width, height);
  }
  vpx_codec_destroy(&ctx);
  rewind(out);
  put_file_header(out, width, height, packets);
  return fclose(out) != 0;
}
