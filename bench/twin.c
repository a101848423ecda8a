/* twin: the machine of document 01 in plain C, by hand and unproved, to compare speeds with.
 *   twin turn < input | twin replay < cases | twin bench FILE N | twin bench-check FILE N
 * Flat tables; a check in one pass for each method, after a scan for starts and labels; an interpreter that decodes from the bytes, makes
 * every test of 01 at every step, counts steps exactly and keeps the whole state. Cells are tagged: a reference carries the class of its
 * object, so a fit is one bit test. */
#include <stdint.h>
#include <stdio.h>
#include <stdlib.h>
#include <string.h>
#include <time.h>

#define likely(x) __builtin_expect(!!(x), 1)
#define unlikely(x) __builtin_expect(!!(x), 0)
typedef uint8_t u8; typedef uint16_t u16; typedef uint32_t u32; typedef uint64_t u64;
typedef int32_t i32; typedef int64_t i64;

enum { VOID = 0, I4 = 1, I8 = 2, F = 3, NUL = 4 };            /* inner types; class r is 4 + r */
#define CLS(r) (4 + (r))
enum { STATIC, INSTANCE, VIRTUAL, CTOR, INIT };
#define NANBITS 0x7FF8000000000000ull

typedef struct { u8 owner, isstatic, type, slot; } Field;
typedef struct {
  u8 owner, sort, ret, max, over, root, nargs, nlocals;
  u32 off; u16 len; u16 place;
  u8 args[8], locals[16], lzero[16];                          /* lzero: tag of a cleared local */
} Method;
typedef struct {
  u32 ncls, nfld, nstat, nmeth, entry;
  u8 parent[33], ninst[33], init[33];
  u8 layout[33][8];                                           /* types of the fields of an object */
  u64 fit[37];                                                /* bit w of fit[t]: t fits w */
  Field fld[129]; Method meth[129];
  u8 vtab[33][129];                                           /* class, root -> method row */
  const u8 *code; u32 codelen;
} Module;

static inline u32 le16(const u8 *p) { u16 x; memcpy(&x, p, 2); return x; }
static inline u32 le32(const u8 *p) { u32 x; memcpy(&x, p, 4); return x; }
static inline u64 le64(const u8 *p) { u64 x; memcpy(&x, p, 8); return x; }
static inline double tof(u64 v) { double d; memcpy(&d, &v, 8); return d; }
static inline u64 tob(double d) { u64 v; memcpy(&v, &d, 8); return d != d ? NANBITS : v; }

/* ------------------------------------------------------------------ loading */
static int inner(u32 t, u32 ncls) { return t >= 1 && t <= 3 ? (int)t : t > 32 && t - 32 <= ncls ? (int)(t - 28) : -1; }

__attribute__((noinline)) int load(Module *m, const u8 *t, u32 n, const u8 *code, u32 codelen, u32 *place) {
  static const u8 body[7] = {0, 1, 3, 11, 1, 1, 1};
#define REFUSE(k) do { *place = at; return k; } while (0)
  u32 at = 0, phase = 0, lastowner = 0, cfin = 0;
  *place = 0;
  if (n > 8192 || codelen > 32768) return 1;
  m->ncls = m->nfld = m->nstat = m->nmeth = m->entry = 0;
  m->code = code; m->codelen = codelen;
  m->parent[0] = m->ninst[0] = 0;
  memset(m->init, 0, sizeof m->init);
  Method *x = 0;
  while (at < n) {
    u32 k = t[at];
    const u8 *b = t + at + 1;
    if (k - 1 > 5 || at + 1 + body[k] > n) REFUSE(2);
    switch (k) {
    case 1: {
      if (phase > 1) REFUSE(3);
      u32 row = m->ncls + 1;
      if (row == 1 ? b[0] != 0 : !(b[0] >= 1 && b[0] < row)) REFUSE(4);
      if (row > 32) REFUSE(5);
      m->parent[row] = b[0]; m->ncls = row; phase = 1;
      break; }
    case 2: {
      if ((phase != 1 && phase != 2) || b[0] < lastowner) REFUSE(3);
      int ty = inner(b[2], m->ncls);
      if (b[0] - 1u >= m->ncls || b[1] > 1 || ty < 0) REFUSE(4);
      while (cfin < b[0]) {
        u32 p = m->parent[++cfin];
        m->ninst[cfin] = m->ninst[p];
        memcpy(m->layout[cfin], m->layout[p], 8);
      }
      if (m->nfld >= 128 || (b[1] ? m->nstat >= 64 : m->ninst[b[0]] >= 8)) REFUSE(5);
      Field *f = &m->fld[++m->nfld];
      f->owner = b[0]; f->isstatic = b[1]; f->type = ty;
      if (b[1]) f->slot = m->nstat++;
      else { f->slot = m->ninst[b[0]]++; m->layout[b[0]][f->slot] = ty; }
      lastowner = b[0]; phase = 2;
      break; }
    case 3: {
      if (phase - 1 > 3) REFUSE(3);
      u32 off = le32(b + 5), len = le16(b + 9);
      int ret = b[2] ? inner(b[2], m->ncls) : 0;
      if (b[0] - 1u >= m->ncls || b[1] > 4 || ret < 0 || b[3] > 32 || len - 1 > 1023 || (u64)off + len > codelen) REFUSE(4);
      if (m->nmeth >= 128) REFUSE(5);
      u32 row = m->nmeth + 1, root = row;
      if (b[4]) {
        if (b[1] != VIRTUAL || b[4] >= row) REFUSE(6);
        Method *o = &m->meth[b[4]];
        if (o->sort != VIRTUAL || o->owner >= b[0]) REFUSE(6);
        u32 c = b[0];
        while (c > o->owner) c = m->parent[c];
        if (c != o->owner) REFUSE(6);
        root = o->root;
        for (u32 r = 1; r < row; r++) if (m->meth[r].owner == b[0] && m->meth[r].root == root) REFUSE(6);
      }
      if (b[1] == INIT && (b[0] == 1 || b[2] || m->init[b[0]])) REFUSE(6);
      if (b[1] == CTOR && b[2]) REFUSE(6);
      x = &m->meth[row];
      x->owner = b[0]; x->sort = b[1]; x->ret = ret; x->max = b[3]; x->over = b[4]; x->root = root;
      x->off = off; x->len = len; x->place = at; x->nlocals = 0; x->nargs = 0;
      if (b[1] - 1u < 3) x->args[x->nargs++] = CLS(b[0]);
      if (b[1] == INIT) m->init[b[0]] = row;
      m->nmeth = row; phase = 3;
      break; }
    case 4: {
      if (phase != 3) REFUSE(3);
      int ty = inner(b[0], m->ncls);
      if (ty < 0) REFUSE(4);
      if (x->nargs >= 8) REFUSE(5);
      if (x->sort == INIT) REFUSE(6);
      x->args[x->nargs++] = ty;
      break; }
    case 5: {
      if (phase - 3 > 1) REFUSE(3);
      int ty = inner(b[0], m->ncls);
      if (ty < 0) REFUSE(4);
      if (x->nlocals >= 16) REFUSE(5);
      x->locals[x->nlocals] = ty; x->lzero[x->nlocals++] = ty > NUL ? NUL : ty;
      phase = 4;
      break; }
    default: {
      if (phase - 1 > 3) REFUSE(3);
      if (b[0] - 1u >= m->nmeth) REFUSE(4);
      Method *e = &m->meth[b[0]];
      if (e->sort != STATIC || e->ret > NUL) REFUSE(6);
      for (u32 i = 0; i < e->nargs; i++) if (e->args[i] > I8) REFUSE(6);
      m->entry = b[0]; phase = 5;
      break; }
    }
    at += 1 + body[k];
  }
  if (phase != 5) REFUSE(3);
  for (u32 r = 1; r <= m->nmeth; r++) if (m->meth[r].over) {
    Method *p = &m->meth[r], *o = &m->meth[p->over];
    if (p->ret != o->ret || p->nargs != o->nargs || memcmp(p->args + 1, o->args + 1, p->nargs - 1)) { *place = p->place; return 7; }
  }
  /* derived: layouts, fits, dispatch */
  while (cfin < m->ncls) { u32 p = m->parent[++cfin]; m->ninst[cfin] = m->ninst[p]; memcpy(m->layout[cfin], m->layout[p], 8); }
  for (u32 i = 0; i <= NUL; i++) m->fit[i] = 1ull << i;
  m->fit[NUL] = ~0ull << 5;                                   /* null fits every class */
  for (u32 c = 1; c <= m->ncls; c++) m->fit[CLS(c)] = 1ull << CLS(c) | (c > 1 ? m->fit[CLS(m->parent[c])] : 0);
  u8 head[33] = {0}, next[129];
  for (u32 r = 1; r <= m->nmeth; r++) if (m->meth[r].sort == VIRTUAL) { next[r] = head[m->meth[r].owner]; head[m->meth[r].owner] = r; }
  memset(m->vtab[0], 0, sizeof m->vtab[0]);
  for (u32 c = 1; c <= m->ncls; c++) {
    memcpy(m->vtab[c], m->vtab[m->parent[c]], sizeof m->vtab[0]);
    for (u32 r = head[c]; r; r = next[r]) m->vtab[c][m->meth[r].root] = r;
  }
  return 0;
}

/* ------------------------------------------------------------------ reading code */
#define X9(a) a,a,a,a,a,a,a,a,a
#define X13(a) a,a,a,a,a,a,a,a,a,a,a,a,a
static const u8 LEN[256] = {
  [0x00] = 1, [0x02] = 1,1,1,1,1,1,1,1,1,1,1,1, [0x0E] = 2, [0x10] = 2, 2, [0x13] = 2,
  [0x14] = 1,1, X9(1), [0x1F] = 2, 5, 9, [0x23] = 9, [0x25] = 1, 1, [0x28] = 5, [0x2A] = 1,
  [0x2B] = X13(2), [0x38] = X13(5), [0x58] = X13(1), [0x65] = 1, 1, [0x69] = 1, 1, [0x6C] = 1,
  [0x6F] = 5, [0x73] = 5, 5, 5, [0x7B] = 5, [0x7D] = 5, 5, [0x80] = 5, [0xD6] = 1, [0xD8] = 1, [0xDA] = 1, [0xFE] = 2 };

/* classes of opcodes for the check */
enum { K_NONE, K_NOP, K_LDARG, K_LDLOC, K_STLOC, K_STARG, K_NULL, K_C4, K_C8, K_CR, K_DUP, K_POP, K_CALL, K_RET, K_BR, K_BRB,
  K_BRREF, K_BRNUM, K_ARF, K_ARI, K_SHIFT, K_NEG, K_NOT, K_CONVI, K_CONVL, K_CONVR, K_VIRT, K_NEW, K_CAST, K_LDF, K_STF,
  K_LDS, K_STS, K_CMP };
static const u8 KIND[256] = {
  [0x00] = K_NOP, [0x02] = K_LDARG, K_LDARG, K_LDARG, K_LDARG, K_LDLOC, K_LDLOC, K_LDLOC, K_LDLOC, K_STLOC, K_STLOC, K_STLOC,
  K_STLOC, K_LDARG, [0x10] = K_STARG, K_LDLOC, [0x13] = K_STLOC, K_NULL, K_C4, X9(K_C4), K_C4, K_C4, K_C8, [0x23] = K_CR,
  [0x25] = K_DUP, K_POP, [0x28] = K_CALL, [0x2A] = K_RET,
  [0x2B] = K_BR, K_BRB, K_BRB, K_BRREF, K_BRNUM, K_BRNUM, K_BRNUM, K_BRNUM, K_BRREF, K_BRNUM, K_BRNUM, K_BRNUM, K_BRNUM,
  [0x38] = K_BR, K_BRB, K_BRB, K_BRREF, K_BRNUM, K_BRNUM, K_BRNUM, K_BRNUM, K_BRREF, K_BRNUM, K_BRNUM, K_BRNUM, K_BRNUM,
  [0x58] = K_ARF, K_ARF, K_ARF, K_ARF, K_ARI, K_ARI, K_ARI, K_ARI, K_ARI, K_ARI, K_SHIFT, K_SHIFT, K_SHIFT, K_NEG, K_NOT,
  [0x69] = K_CONVI, K_CONVL, [0x6C] = K_CONVR, [0x6F] = K_VIRT, [0x73] = K_NEW, K_CAST, K_CAST, [0x7B] = K_LDF,
  [0x7D] = K_STF, K_LDS, [0x80] = K_STS, [0xD6] = K_ARI, [0xD8] = K_ARI, [0xDA] = K_ARI, [0xFE] = K_CMP };

/* ------------------------------------------------------------------ the check */
typedef struct { int at; u8 ty[32]; u32 d; u8 *opty; } Hook;  /* for twin_fast: shape before `at`, operand type by offset */
static u8 shp[1025][32], shd[1025];
enum { F_START = 1, F_LABEL = 2, F_HAS = 4 };

static inline u32 argno(const u8 *p) {                        /* number in ldarg, ldloc, stloc, starg */
  u32 b = *p;
  return b >= 0x0E ? p[1] : (b - 2) & 3;
}
static inline i64 target(const u8 *c, u32 at) { return LEN[c[at]] == 2 ? (i64)at + 2 + (int8_t)c[at + 1] : (i64)at + 5 + (i32)le32(c + at + 1); }

/* operand of the instruction at `at` (decodable), target included */
static int operand_ok(const Module *m, const Method *x, const u8 *c, u32 at, const u8 *fl) {
  u32 b = c[at];
  switch (KIND[b]) {
  case K_LDARG: case K_STARG: return argno(c + at) < x->nargs;
  case K_LDLOC: case K_STLOC: return argno(c + at) < x->nlocals;
  case K_BR: case K_BRB: case K_BRREF: case K_BRNUM: { i64 t = target(c, at); return (u64)t < x->len && (fl[t] & F_START); }
  case K_CALL: case K_VIRT: case K_NEW: {
    u32 r = le32(c + at + 1) - 0x06000001u;
    if (r >= m->nmeth) return 0;
    u32 s = m->meth[r + 1].sort;
    return b == 0x28 ? s != INIT : b == 0x6F ? s - 1 < 2 : s == CTOR; }
  case K_CAST: return le32(c + at + 1) - 0x02000001u < m->ncls;
  case K_LDF: case K_STF: case K_LDS: case K_STS: { u32 r = le32(c + at + 1) - 0x04000001u; return r < m->nfld && m->fld[r + 1].isstatic == (b >= 0x7E); }
  }
  return 1;
}
/* a shape fault k at `at`: an operand fault anywhere goes before it */
static __attribute__((noinline)) int fault(const Module *m, const Method *x, const u8 *c, u32 at, const u8 *fl, int k, u32 *place) {
  for (u32 p = at; p < x->len; p += LEN[c[p]]) if (!operand_ok(m, x, c, p, fl)) { *place = p; return 12; }
  *place = at;
  return k;
}
__attribute__((noinline)) int check_method(const Module *m, u32 row, u32 *place, Hook *hook) {
  const Method *x = &m->meth[row];
  const u8 *c = m->code + x->off;
  u32 len = x->len, at, n;
  static u8 fl[1040];
  memset(fl, 0, len);
  /* scan 1: lengths, starts, labels */
  for (at = 0; at < len; at += n) {
    u32 b = c[at];
    n = LEN[b];
    if (unlikely(n == 0 || at + n > len)) { *place = at; return 11; }
    fl[at] |= F_START;
    if (b - 0x2B < 26) { i64 t = target(c, at); if ((u64)t < len) fl[t] |= F_LABEL; }
    else if (b == 0xFE && unlikely(c[at + 1] - 1u > 4)) { *place = at; return 11; }
  }
  /* scan 2: operands and shapes */
  u8 st[40]; u32 d = 0, max = x->max;
  const u64 *fit = m->fit;
#define FAULT(k) return fault(m, x, c, at, fl, k, place)
#define OPERAND(e) do { if (unlikely(!(e))) { *place = at; return 12; } } while (0)
#define NEEDC(k) do { if (unlikely(d < (k))) FAULT(13); } while (0)
#define OKC(e) do { if (unlikely(!(e))) FAULT(15); } while (0)
#define PUSHC(t) do { if (unlikely(d >= max)) FAULT(14); st[d++] = (t); } while (0)
#define FITS(a, w) (fit[a] >> (w) & 1)
  fl[0] |= F_HAS; shd[0] = 0;
  for (at = 0; at < len; at += n) {
    u32 b = c[at], falls = 1; i64 tg = -1;
    if (unlikely(hook != 0)) {
      if (hook->at == (int)at) { memcpy(hook->ty, st, 32); hook->d = d; }
      if (hook->opty) hook->opty[at] = KIND[b] == K_SHIFT ? (d >= 2 ? st[d - 2] : 0) : d ? st[d - 1] : 0;
    }
#define LDVAR(k1, count, types, l) { OPERAND((k1) < (count)); PUSHC((types)[k1]); n = l; break; }
#define STVAR(k1, count, types, l) { OPERAND((k1) < (count)); NEEDC(1); OKC(FITS(st[d - 1], (types)[k1])); d--; n = l; break; }
#define CONST(t, l) { PUSHC(t); n = l; break; }
#define TGS n = 2; tg = (i64)at + 2 + (int8_t)c[at + 1]; OPERAND((u64)tg < len && (fl[tg] & F_START))
#define TGL n = 5; tg = (i64)at + 5 + (i32)le32(c + at + 1); OPERAND((u64)tg < len && (fl[tg] & F_START))
#define BRB { NEEDC(1); OKC(st[d - 1] != F); d--; break; }
#define NUMS (st[d - 1] == st[d - 2] && st[d - 1] <= F)
#define REFS (st[d - 1] >= NUL && st[d - 2] >= NUL)
#define BRREF { NEEDC(2); OKC(NUMS || REFS); d -= 2; break; }
#define BRNUM { NEEDC(2); OKC(NUMS); d -= 2; break; }
#define FIELD u32 r = le32(c + at + 1) - 0x04000001u; OPERAND(r < m->nfld && m->fld[r + 1].isstatic == (b >= 0x7E)); const Field *f = &m->fld[r + 1]; n = 5
    switch (b) {                                              /* the length is a constant of each case: no chain of loads */
    case 0x00: n = 1; break;
    case 0x02: LDVAR(0, x->nargs, x->args, 1) case 0x03: LDVAR(1, x->nargs, x->args, 1) case 0x04: LDVAR(2, x->nargs, x->args, 1) case 0x05: LDVAR(3, x->nargs, x->args, 1)
    case 0x06: LDVAR(0, x->nlocals, x->locals, 1) case 0x07: LDVAR(1, x->nlocals, x->locals, 1) case 0x08: LDVAR(2, x->nlocals, x->locals, 1) case 0x09: LDVAR(3, x->nlocals, x->locals, 1)
    case 0x0A: STVAR(0, x->nlocals, x->locals, 1) case 0x0B: STVAR(1, x->nlocals, x->locals, 1) case 0x0C: STVAR(2, x->nlocals, x->locals, 1) case 0x0D: STVAR(3, x->nlocals, x->locals, 1)
    case 0x0E: LDVAR(c[at + 1], x->nargs, x->args, 2) case 0x10: STVAR(c[at + 1], x->nargs, x->args, 2)
    case 0x11: LDVAR(c[at + 1], x->nlocals, x->locals, 2) case 0x13: STVAR(c[at + 1], x->nlocals, x->locals, 2)
    case 0x14: CONST(NUL, 1) case 0x15 ... 0x1E: CONST(I4, 1) case 0x1F: CONST(I4, 2) case 0x20: CONST(I4, 5) case 0x21: CONST(I8, 9) case 0x23: CONST(F, 9)
    case 0x25: { NEEDC(1); u8 t = st[d - 1]; CONST(t, 1) }
    case 0x26: NEEDC(1); d--; n = 1; break;
    case 0x2A:
      if (x->ret) { NEEDC(1); OKC(d == 1 && FITS(st[0], x->ret)); } else OKC(d == 0);
      d = 0; falls = 0; n = 1; break;
    case 0x2B: TGS; falls = 0; break;
    case 0x2C: case 0x2D: TGS; BRB
    case 0x2E: case 0x33: TGS; BRREF
    case 0x2F ... 0x32: case 0x34 ... 0x37: TGS; BRNUM
    case 0x38: TGL; falls = 0; break;
    case 0x39: case 0x3A: TGL; BRB
    case 0x3B: case 0x40: TGL; BRREF
    case 0x3C ... 0x3F: case 0x41 ... 0x44: TGL; BRNUM
    case 0xFE: NEEDC(2); OKC(NUMS || (c[at + 1] == 1 && REFS)); st[--d - 1] = I4; n = 2; break;
    case 0x58 ... 0x5B: NEEDC(2); OKC(NUMS); d--; n = 1; break;
    case 0x5C ... 0x61: case 0xD6: case 0xD8: case 0xDA: NEEDC(2); OKC(st[d - 1] == st[d - 2] && st[d - 1] <= I8); d--; n = 1; break;
    case 0x62 ... 0x64: NEEDC(2); OKC(st[d - 1] == I4 && st[d - 2] <= I8); d--; n = 1; break;
    case 0x65: NEEDC(1); OKC(st[d - 1] <= F); n = 1; break;
    case 0x66: NEEDC(1); OKC(st[d - 1] <= I8); n = 1; break;
    case 0x69: NEEDC(1); OKC(st[d - 1] <= I8); st[d - 1] = I4; n = 1; break;
    case 0x6A: NEEDC(1); OKC(st[d - 1] <= I8); st[d - 1] = I8; n = 1; break;
    case 0x6C: NEEDC(1); OKC(st[d - 1] == I4 || st[d - 1] == F); st[d - 1] = F; n = 1; break;
    case 0x28: case 0x6F: case 0x73: {
      u32 r = le32(c + at + 1) - 0x06000001u; OPERAND(r < m->nmeth);
      const Method *y = &m->meth[r + 1];
      OPERAND(b == 0x28 ? y->sort != INIT : b == 0x6F ? y->sort - 1u < 2 : y->sort == CTOR);
      u32 skip = b == 0x73, na = y->nargs - skip;
      NEEDC(na);
      for (u32 i = 0; i < na; i++) OKC(FITS(st[d - na + i], y->args[i + skip]));
      d -= na; n = 5;
      if (skip) PUSHC(CLS(y->owner)); else if (y->ret) PUSHC(y->ret);
      break; }
    case 0x74: case 0x75: { u32 r = le32(c + at + 1) - 0x02000000u; OPERAND(r - 1 < m->ncls); NEEDC(1); OKC(st[d - 1] >= NUL); st[d - 1] = CLS(r); n = 5; break; }
    case 0x7B: { FIELD; NEEDC(1); OKC(FITS(st[d - 1], CLS(f->owner))); st[d - 1] = f->type; break; }
    case 0x7D: { FIELD; NEEDC(2); OKC(FITS(st[d - 2], CLS(f->owner)) && FITS(st[d - 1], f->type)); d -= 2; break; }
    case 0x7E: { FIELD; PUSHC(f->type); break; }
    case 0x80: { FIELD; NEEDC(1); OKC(FITS(st[d - 1], f->type)); d--; break; }
    default: __builtin_unreachable();
    }
    if (tg >= 0) {
      if (fl[tg] & F_HAS) { if (shd[tg] != d || memcmp(shp[tg], st, d)) FAULT(16); }
      else { fl[tg] |= F_HAS; shd[tg] = d; memcpy(shp[tg], st, 32); }
    }
    u32 nx = at + n;
    if (likely(falls)) {
      if (unlikely(nx >= len)) FAULT(17);
      if (unlikely(fl[nx] & F_LABEL)) {
        if (fl[nx] & F_HAS) { if (shd[nx] != d || memcmp(shp[nx], st, d)) FAULT(16); }
        else { fl[nx] |= F_HAS; shd[nx] = d; memcpy(shp[nx], st, 32); }
      }
    } else if (nx < len) {
      if (fl[nx] & F_HAS) { d = shd[nx]; memcpy(st, shp[nx], 32); }
      else { d = 0; fl[nx] |= F_HAS; shd[nx] = 0; }
    }
  }
  return 0;
}
__attribute__((noinline)) int check(const Module *m, u32 *meth, u32 *off) {
  for (u32 r = 1; r <= m->nmeth; r++) { int k = check_method(m, r, off, 0); if (k) { *meth = r; return k; } }
  *meth = *off = 0;
  return 0;
}

/* ------------------------------------------------------------------ the machine */
typedef struct { u64 v; u64 t; } Cell;
typedef struct { const Method *m; u32 at, d; Cell *args, *locals, *stk; } Frame;
typedef struct {
  u32 nframes, nobj; u64 marks;
  Frame frames[32];
  Cell cells[2048];                                           /* arguments, locals and stacks of all frames */
  Cell statics[64];
  u8 oclass[256];
  Cell heap[2048];
} State;
typedef struct { int no; u32 meth, off, steps; int has; Cell val; } Ending;

static int start(const Module *m, State *s, const i64 *args, u32 nargs, i64 budget) {
  const Method *e = &m->meth[m->entry];
  if (nargs != e->nargs) return 21;
  for (u32 i = 0; i < nargs; i++) if (e->args[i] == I4 && args[i] != (i32)args[i]) return 21;
  if (budget < 0 || budget > 1000000) return 22;
  memset(s->heap, 0, sizeof s->heap);
  s->nobj = 0; s->marks = 2;
  for (u32 r = 1; r <= m->nfld; r++) if (m->fld[r].isstatic) { Cell *c = &s->statics[m->fld[r].slot]; c->v = 0; c->t = m->fld[r].type > NUL ? NUL : m->fld[r].type; }
  Frame *f = s->frames;
  f->m = e; f->at = 0; f->d = 0; f->args = s->cells;
  for (u32 i = 0; i < nargs; i++) { f->args[i].v = (u64)args[i]; f->args[i].t = e->args[i]; }
  f->locals = f->args + nargs; f->stk = f->locals + e->nlocals;
  for (u32 i = 0; i < e->nlocals; i++) { f->locals[i].v = 0; f->locals[i].t = e->lzero[i]; }
  s->nframes = 1;
  if (!(s->marks >> e->owner & 1)) {
    s->marks |= 1ull << e->owner;
    if (m->init[e->owner]) {
      const Method *y = &m->meth[m->init[e->owner]];
      Frame *g = f + 1;
      g->m = y; g->at = 0; g->d = 0; g->args = f->stk; g->locals = g->args; g->stk = g->locals + y->nlocals;
      for (u32 i = 0; i < y->nlocals; i++) { g->locals[i].v = 0; g->locals[i].t = y->lzero[i]; }
      s->nframes = 2;
    }
  }
  return 0;
}

/* a plain switch (ISO C), or with -DTHREADED token threading by labels as values */
#ifndef THREADED
#define SWITCH
#endif
#ifdef SWITCH
#define OP(x) case 0x##x:
#define OPM(x) OP(x)
#define DFLT default:
#define DONE break
#else
#define OP(x) L_##x:
#define OPM(x) OP(x)
#define DFLT L_bad:
#define DONE do { if (unlikely(--left == 0)) END(38); if (unlikely(pc >= end)) END(46); goto *tab[*pc]; } while (0)
#endif
__attribute__((noinline)) void interp(const Module *m, State *s, u32 budget, Ending *e) {
  Frame *f = &s->frames[s->nframes - 1];
  Frame *const flim = &s->frames[31];
  const Method *x; const u8 *code, *pc, *end;
  Cell *sp, *stk, *lim, *args, *locs;
  const u64 *fit = m->fit;
  u32 left = budget; int no;
#define ENTER() do { x = f->m; code = m->code + x->off; end = code + x->len; pc = code + f->at; args = f->args; locs = f->locals; \
    stk = f->stk; lim = stk + x->max; sp = stk + f->d; } while (0)
#define END(k) do { no = (k); goto out; } while (0)
#define NEED(k) do { if (unlikely(sp - stk < (k))) END(43); } while (0)
#define ROOM() do { if (unlikely(sp >= lim)) END(44); } while (0)
#define LENGTH(k) do { if (unlikely(end - pc < (k))) END(41); } while (0)
#define FIT(c, w) do { if (unlikely(!(fit[(c).t] >> (w) & 1))) END(45); } while (0)
#define PUSH(vv, tt) do { sp->v = (u64)(vv); sp->t = (tt); sp++; } while (0)
#ifndef SWITCH
  static const void *const tab[256] = { [0 ... 255] = &&L_bad, [0x00] = &&L_00, [0x02] = &&L_02, [0x03] = &&L_03, [0x04] = &&L_04, [0x05] = &&L_05, [0x06] = &&L_06, [0x07] = &&L_07, [0x08] = &&L_08, [0x09] = &&L_09, [0x0A] = &&L_0A, [0x0B] = &&L_0B, [0x0C] = &&L_0C, [0x0D] = &&L_0D, [0x0E] = &&L_0E, [0x10] = &&L_10, [0x11] = &&L_11, [0x13] = &&L_13, [0x14] = &&L_14, [0x15] = &&L_15, [0x16] = &&L_16, [0x17] = &&L_17, [0x18] = &&L_18, [0x19] = &&L_19, [0x1A] = &&L_1A, [0x1B] = &&L_1B, [0x1C] = &&L_1C, [0x1D] = &&L_1D, [0x1E] = &&L_1E, [0x1F] = &&L_1F, [0x20] = &&L_20, [0x21] = &&L_21, [0x23] = &&L_23, [0x25] = &&L_25, [0x26] = &&L_26, [0x28] = &&L_28, [0x2A] = &&L_2A, [0x2B] = &&L_2B, [0x2C] = &&L_2C, [0x2D] = &&L_2D, [0x2E] = &&L_2E, [0x2F] = &&L_2F, [0x30] = &&L_30, [0x31] = &&L_31, [0x32] = &&L_32, [0x33] = &&L_33, [0x34] = &&L_34, [0x35] = &&L_35, [0x36] = &&L_36, [0x37] = &&L_37, [0x38] = &&L_38, [0x39] = &&L_39, [0x3A] = &&L_3A, [0x3B] = &&L_3B, [0x3C] = &&L_3C, [0x3D] = &&L_3D, [0x3E] = &&L_3E, [0x3F] = &&L_3F, [0x40] = &&L_40, [0x41] = &&L_41, [0x42] = &&L_42, [0x43] = &&L_43, [0x44] = &&L_44, [0x58] = &&L_58, [0x59] = &&L_59, [0x5A] = &&L_5A, [0x5B] = &&L_5B, [0x5C] = &&L_5C, [0x5D] = &&L_5D, [0x5E] = &&L_5E, [0x5F] = &&L_5F, [0x60] = &&L_60, [0x61] = &&L_61, [0x62] = &&L_62, [0x63] = &&L_63, [0x64] = &&L_64, [0x65] = &&L_65, [0x66] = &&L_66, [0x69] = &&L_69, [0x6A] = &&L_6A, [0x6C] = &&L_6C, [0x6F] = &&L_6F, [0x73] = &&L_73, [0x74] = &&L_74, [0x75] = &&L_75, [0x7B] = &&L_7B, [0x7D] = &&L_7D, [0x7E] = &&L_7E, [0x80] = &&L_80, [0xD6] = &&L_D6, [0xD8] = &&L_D8, [0xDA] = &&L_DA, [0xFE] = &&L_FE, };
#endif
  ENTER();
  for (;;) {
    if (unlikely(left == 0)) END(38);
    if (unlikely(pc >= end)) END(46);
    u32 k;
#ifdef SWITCH
    switch (*pc) {
#else
    goto *tab[*pc]; {
#endif
    OP(00) pc++; DONE;
#define LDARG(n, l) if (unlikely((n) >= x->nargs)) END(42); ROOM(); *sp++ = args[n]; pc += l; DONE
    OP(02) LDARG(0, 1); OP(03) LDARG(1, 1); OP(04) LDARG(2, 1); OP(05) LDARG(3, 1);
    OP(0E) LENGTH(2); k = pc[1]; LDARG(k, 2);
#define LDLOC(n, l) if (unlikely((n) >= x->nlocals)) END(42); ROOM(); *sp++ = locs[n]; pc += l; DONE
    OP(06) LDLOC(0, 1); OP(07) LDLOC(1, 1); OP(08) LDLOC(2, 1); OP(09) LDLOC(3, 1);
    OP(11) LENGTH(2); k = pc[1]; LDLOC(k, 2);
#define STLOC(n, l) if (unlikely((n) >= x->nlocals)) END(42); NEED(1); FIT(sp[-1], x->locals[n]); locs[n] = *--sp; pc += l; DONE
    OP(0A) STLOC(0, 1); OP(0B) STLOC(1, 1); OP(0C) STLOC(2, 1); OP(0D) STLOC(3, 1);
    OP(13) LENGTH(2); k = pc[1]; STLOC(k, 2);
    OP(10) LENGTH(2); k = pc[1]; if (unlikely(k >= x->nargs)) END(42); NEED(1); FIT(sp[-1], x->args[k]); args[k] = *--sp; pc += 2; DONE;
    OP(14) ROOM(); PUSH(0, NUL); pc++; DONE;
    OP(15) OP(16) OP(17) OP(18) OP(19) OP(1A) OP(1B) OP(1C) OP(1D) OP(1E)
      ROOM(); PUSH((i64)*pc - 0x16, I4); pc++; DONE;
    OP(1F) LENGTH(2); ROOM(); PUSH((i64)(int8_t)pc[1], I4); pc += 2; DONE;
    OP(20) LENGTH(5); ROOM(); PUSH((i64)(i32)le32(pc + 1), I4); pc += 5; DONE;
    OP(21) LENGTH(9); ROOM(); PUSH(le64(pc + 1), I8); pc += 9; DONE;
    OP(23) LENGTH(9); ROOM(); PUSH(tob(tof(le64(pc + 1))), F); pc += 9; DONE;
    OP(25) NEED(1); ROOM(); *sp = sp[-1]; sp++; pc++; DONE;
    OP(26) NEED(1); sp--; pc++; DONE;
    OP(2A) {
      if (x->ret) { NEED(1); if (unlikely(sp - stk != 1)) END(45); FIT(stk[0], x->ret); }
      else if (unlikely(sp != stk)) END(45);
      if (unlikely(f == s->frames)) {
        e->no = 0; e->meth = x - m->meth; e->off = pc - code; e->steps = budget - left + 1; e->has = x->ret != 0;
        if (x->ret) e->val = stk[0];
        s->nframes = 0;
        return;
      }
      f--;
      if (likely(x->sort != INIT)) { if (x->ret) f->stk[f->d++] = stk[0]; f->at += 5; }
      ENTER();
      DONE; }
#define TG(l, dd) LENGTH(l); i64 t = (pc - code) + (l) + (i64)(dd); if (unlikely((u64)t >= x->len)) END(42)
#define TS TG(2, (int8_t)pc[1])
#define TL TG(5, (i32)le32(pc + 1))
    OP(2B) { TS; pc = code + t; DONE; }
    OP(38) { TL; pc = code + t; DONE; }
#undef BRB
#define BRB(op, l) NEED(1); if (unlikely(sp[-1].t == F)) END(45); sp--; pc = sp->v op 0 ? code + t : pc + l; DONE
    OP(2C) { TS; BRB(==, 2); } OP(2D) { TS; BRB(!=, 2); }
    OP(39) { TL; BRB(==, 5); } OP(3A) { TL; BRB(!=, 5); }
#define COMPARE(ie, fe, ref) u64 a = sp[-2].v, b = sp[-1].v; int yes; (void)a; (void)b; \
      if (likely(sp[-1].t == sp[-2].t && sp[-1].t <= I8)) yes = (ie); \
      else if (sp[-1].t == F && sp[-2].t == F) { double x1 = tof(a), y1 = tof(b); yes = (fe); } \
      else if (ref && sp[-1].t >= NUL && sp[-2].t >= NUL) yes = (ie); \
      else END(45)
#define BRC(os, ol, ie, fe, ref) \
    OPM(os) { TS; NEED(2); COMPARE(ie, fe, ref); sp -= 2; pc = yes ? code + t : pc + 2; DONE; } \
    OPM(ol) { TL; NEED(2); COMPARE(ie, fe, ref); sp -= 2; pc = yes ? code + t : pc + 5; DONE; }
    BRC(2E, 3B, a == b, x1 == y1, 1)
    BRC(2F, 3C, (i64)a >= (i64)b, x1 >= y1, 0)
    BRC(30, 3D, (i64)a > (i64)b, x1 > y1, 0)
    BRC(31, 3E, (i64)a <= (i64)b, x1 <= y1, 0)
    BRC(32, 3F, (i64)a < (i64)b, x1 < y1, 0)
    BRC(33, 40, a != b, x1 != y1, 1)
    BRC(34, 41, a >= b, !(x1 < y1), 0)
    BRC(35, 42, a > b, !(x1 <= y1), 0)
    BRC(36, 43, a <= b, !(x1 > y1), 0)
    BRC(37, 44, a < b, !(x1 >= y1), 0)
#define SETC(ie, fe, ref) { NEED(2); COMPARE(ie, fe, ref); sp--; sp[-1].v = yes; sp[-1].t = I4; pc += 2; DONE; }
    OP(FE)
      LENGTH(2);
      switch (pc[1]) {
      case 1: SETC(a == b, x1 == y1, 1)
      case 2: SETC((i64)a > (i64)b, x1 > y1, 0)
      case 3: SETC(a > b, !(x1 <= y1), 0)
      case 4: SETC((i64)a < (i64)b, x1 < y1, 0)
      case 5: SETC(a < b, !(x1 >= y1), 0)
      default: END(41);
      }
      DONE;
#define NUM2(top) NEED(2); u64 t = sp[-1].t, a = sp[-2].v, b = sp[-1].v; if (unlikely(t != sp[-2].t || t > (top))) END(45)
#define RES(r) sp--; sp[-1].v = (u64)(r); pc++; DONE
#define ARF(op) { NUM2(F); u64 r; if (t == I4) r = (i64)(i32)((u32)a op (u32)b); else if (t == I8) r = a op b; else r = tob(tof(a) op tof(b)); RES(r); }
    OP(58) ARF(+)
    OP(59) ARF(-)
    OP(5A) ARF(*)
    OP(5B) { NUM2(F); u64 r;
      if (t == F) r = tob(tof(a) / tof(b));
      else { if (unlikely(b == 0)) END(31);
        if (t == I4) { if (unlikely((i32)a == INT32_MIN && (i32)b == -1)) END(32); r = (i64)((i32)a / (i32)b); }
        else { if (unlikely((i64)a == INT64_MIN && (i64)b == -1)) END(32); r = (i64)a / (i64)b; } }
      RES(r); }
    OP(5C) { NUM2(I8); if (unlikely(b == 0)) END(31); RES(t == I4 ? (i64)(i32)((u32)a / (u32)b) : (i64)(a / b)); }
    OP(5D) { NUM2(I8); u64 r; if (unlikely(b == 0)) END(31);
      if (t == I4) { if (unlikely((i32)a == INT32_MIN && (i32)b == -1)) END(32); r = (i64)((i32)a % (i32)b); }
      else { if (unlikely((i64)a == INT64_MIN && (i64)b == -1)) END(32); r = (i64)a % (i64)b; }
      RES(r); }
    OP(5E) { NUM2(I8); if (unlikely(b == 0)) END(31); RES(t == I4 ? (i64)(i32)((u32)a % (u32)b) : (i64)(a % b)); }
    OP(5F) { NUM2(I8); RES(a & b); }
    OP(60) { NUM2(I8); RES(a | b); }
    OP(61) { NUM2(I8); RES(a ^ b); }
#define SH2 NEED(2); u64 t = sp[-2].t, a = sp[-2].v; u32 b = (u32)sp[-1].v; if (unlikely(sp[-1].t != I4 || t > I8)) END(45)
    OP(62) { SH2; RES(t == I4 ? (i64)(i32)((u32)a << (b & 31)) : (i64)(a << (b & 63))); }
    OP(63) { SH2; RES((i64)a >> (b & (t == I4 ? 31 : 63))); }
    OP(64) { SH2; RES(t == I4 ? (i64)(i32)((u32)a >> (b & 31)) : (i64)(a >> (b & 63))); }
    OP(65) { NEED(1); u64 t = sp[-1].t, a = sp[-1].v; if (unlikely(t > F)) END(45);
      sp[-1].v = t == I4 ? (u64)(i64)(i32)(0u - (u32)a) : t == I8 ? 0 - a : a == NANBITS ? a : a ^ 1ull << 63; pc++; DONE; }
    OP(66) NEED(1); if (unlikely(sp[-1].t > I8)) END(45); sp[-1].v = ~sp[-1].v; pc++; DONE;
    OP(69) NEED(1); if (unlikely(sp[-1].t > I8)) END(45); sp[-1].v = (i64)(i32)sp[-1].v; sp[-1].t = I4; pc++; DONE;
    OP(6A) NEED(1); if (unlikely(sp[-1].t > I8)) END(45); sp[-1].t = I8; pc++; DONE;
    OP(6C) NEED(1); if (sp[-1].t == I4) { sp[-1].v = tob((double)(i32)sp[-1].v); sp[-1].t = F; } else if (unlikely(sp[-1].t != F)) END(45); pc++; DONE;
#define OVF(fn) { NUM2(I8); i64 r; if (t == I4) { i32 q; if (unlikely(fn((i32)a, (i32)b, &q))) END(33); r = q; } else { if (unlikely(fn((i64)a, (i64)b, &r))) END(33); } RES(r); }
    OP(D6) OVF(__builtin_add_overflow)
    OP(D8) OVF(__builtin_mul_overflow)
    OP(DA) OVF(__builtin_sub_overflow)
    OP(74) OP(75) {
      LENGTH(5); u32 r = le32(pc + 1) - 0x02000000u; if (unlikely(r - 1 >= m->ncls)) END(42);
      NEED(1); if (unlikely(sp[-1].t < NUL)) END(45);
      if (!(fit[sp[-1].t] >> CLS(r) & 1)) { if (*pc == 0x74) END(35); sp[-1].v = 0; sp[-1].t = NUL; }
      pc += 5; DONE; }
    /* the class k is not started: push its initialiser, or go on (and mark when nothing can end the step) */
#define BEGIN(c, tests) if (unlikely(!(s->marks >> (c) & 1))) { \
      if (m->init[c]) { if (f == flim) END(36); s->marks |= 1ull << (c); k = m->init[c]; goto initialiser; } \
      tests; s->marks |= 1ull << (c); }
#define FLD(st) LENGTH(5); u32 r = le32(pc + 1) - 0x04000001u; if (unlikely(r >= m->nfld)) END(42); const Field *q = &m->fld[r + 1]; if (unlikely(q->isstatic != st)) END(42)
    OP(7B) { FLD(0); NEED(1); FIT(sp[-1], CLS(q->owner)); u64 o = sp[-1].v;
      BEGIN(q->owner, if (o == 0) END(34));
      if (unlikely(o == 0)) END(34);
      sp[-1] = s->heap[(o - 1) * 8 + q->slot]; pc += 5; DONE; }
    OP(7D) { FLD(0); NEED(2); FIT(sp[-2], CLS(q->owner)); FIT(sp[-1], q->type); u64 o = sp[-2].v;
      BEGIN(q->owner, if (o == 0) END(34));
      if (unlikely(o == 0)) END(34);
      s->heap[(o - 1) * 8 + q->slot] = sp[-1]; sp -= 2; pc += 5; DONE; }
    OP(7E) { FLD(1); ROOM(); BEGIN(q->owner, ); *sp++ = s->statics[q->slot]; pc += 5; DONE; }
    OP(80) { FLD(1); NEED(1); FIT(sp[-1], q->type); BEGIN(q->owner, ); s->statics[q->slot] = *--sp; pc += 5; DONE; }
#define MTH() LENGTH(5); u32 r = le32(pc + 1) - 0x06000001u; if (unlikely(r >= m->nmeth)) END(42); const Method *y = &m->meth[r + 1]
#define ARGS(y, skip) u32 na = y->nargs - skip; NEED((i64)na); Cell *base = sp - na; \
      for (u32 i = 0; i < na; i++) FIT(base[i], y->args[i + skip])
#define PUSHFRAME(y, a) do { f->at = pc - code; f++; f->m = y; f->at = 0; f->d = 0; f->args = a; Cell *l = a + y->nargs; f->locals = l; \
      for (u32 i = 0; i < y->nlocals; i++) { l[i].v = 0; l[i].t = y->lzero[i]; } f->stk = l + y->nlocals; ENTER(); } while (0)
    OP(28) { MTH(); if (unlikely(y->sort == INIT)) END(42); ARGS(y, 0);
      if (unlikely(y->ret && base >= lim)) END(44);
      BEGIN(y->owner, if (f == flim) END(36));
      if (unlikely(f == flim)) END(36);
      f->d = base - stk; PUSHFRAME(y, base); DONE; }
    OP(6F) { MTH(); if (unlikely(y->sort - 1u > 1)) END(42); ARGS(y, 0);
      if (unlikely(base[0].v == 0)) END(34);
      if (y->sort == VIRTUAL) y = &m->meth[m->vtab[base[0].t - NUL][y->root]];
      BEGIN(y->owner, if (f == flim) END(36));
      if (unlikely(f == flim)) END(36);
      f->d = base - stk; PUSHFRAME(y, base); DONE; }
    OP(73) { MTH(); if (unlikely(y->sort != CTOR)) END(42); ARGS(y, 1);
      if (unlikely(base >= lim)) END(44);
      BEGIN(y->owner, if (s->nobj >= 256) END(37); if (f == flim) END(36));
      if (unlikely(s->nobj >= 256)) END(37);
      if (unlikely(f == flim)) END(36);
      u32 c = y->owner, o = s->nobj++;
      s->oclass[o] = c;
      for (u32 i = 0; i < m->ninst[c]; i++) s->heap[o * 8 + i].t = m->layout[c][i] > NUL ? NUL : m->layout[c][i];
      memmove(base + 2, base, na * sizeof(Cell));
      base[0].v = base[1].v = o + 1; base[0].t = base[1].t = CLS(c);
      f->d = base + 1 - stk; PUSHFRAME(y, (base + 1)); DONE; }
    DFLT END(41);
    initialiser: { const Method *y = &m->meth[k]; f->d = sp - stk; PUSHFRAME(y, sp); DONE; }
    }
#ifdef SWITCH
    left--;
#endif
  }
out:
  f->at = pc - code; f->d = sp - stk;
  s->nframes = f - s->frames + 1;
  e->no = no; e->meth = x - m->meth; e->off = f->at; e->steps = budget - left; e->has = 0;
}

/* ------------------------------------------------------------------ text */
static char *out; static size_t outn, outcap;
static void need(size_t k) { if (outn + k > outcap) { outcap = (outcap + k) * 2; out = realloc(out, outcap); } }
#define PR(...) do { need(256); outn += sprintf(out + outn, __VA_ARGS__); } while (0)
static void cell(Cell c) {
  switch (c.t) { case I4: PR("i%d", (i32)c.v); break; case I8: PR("l%lld", (long long)c.v); break; case F: PR("f%016llX", (unsigned long long)c.v); break;
    case NUL: PR("n"); break; default: PR("o%d", (int)c.v); }
}
static void cells(const Cell *c, u32 n) { for (u32 i = 0; i < n; i++) { if (i) PR(","); cell(c[i]); } }
static void dump(const Module *m, const State *s) {
  PR("frames=");
  for (u32 i = 0; i < s->nframes; i++) { const Frame *f = &s->frames[i];
    PR("[%d,%u;", (int)(f->m - m->meth), f->at); cells(f->args, f->m->nargs); PR(";"); cells(f->locals, f->m->nlocals); PR(";"); cells(f->stk, f->d); PR("]"); }
  PR(" statics=");
  int first = 1;
  for (u32 r = 1; r <= m->nfld; r++) if (m->fld[r].isstatic) { PR("%s%u:", first ? "" : ",", r); first = 0; cell(s->statics[m->fld[r].slot]); }
  PR(" marks="); first = 1;
  for (u32 c = 1; c <= m->ncls; c++) if (s->marks >> c & 1) { PR("%s%u", first ? "" : ",", c); first = 0; }
  PR(" heap=");
  for (u32 o = 0; o < s->nobj; o++) { PR("(%u;", s->oclass[o]); cells(s->heap + o * 8, m->ninst[s->oclass[o]]); PR(")"); }
}
static void value(const Ending *e) {
  if (!e->has) PR("-"); else if (e->val.t == F) PR("%016llX", (unsigned long long)e->val.v); else PR("%lld", (long long)e->val.v);
}

static Module M; static State S;
#ifdef FAST
#include "fast_core.h"
#endif
#ifndef RUN
#define RUN(m, checked, budget, e) interp(m, &S, budget, e)
#define START(m, checked, args, n, budget) start(m, &S, args, n, budget)
#define PREPARE(m) (void)0
#define DUMP(m, checked) dump(m, &S)
#endif

static void turn(const u8 *in, size_t n) {
  u32 place, a, b; Ending e;
  if (n < 2) { PR("9 0 0 0 -\n"); return; }
  u32 k = le16(in);
  if (k > 8192) { PR("1 0 0 0 -\n"); return; }
  if (n < 2 + (size_t)k) { PR("9 0 0 0 -\n"); return; }
  if (n - 2 - k > 32768) { PR("1 0 0 0 -\n"); return; }
  int r = load(&M, in + 2, k, in + 2 + k, n - 2 - k, &place);
  if (r) { PR("%d 0 %u 0 -\n", r, place); return; }
  r = check(&M, &a, &b);
  if (r) { PR("%d %u %u 0 -\n", r, a, b); return; }
  PREPARE(&M);
  r = START(&M, 1, 0, 0, 100000);
  if (r) { PR("%d 0 0 0 -\n", r); return; }
  RUN(&M, 1, 100000, &e);
  PR("%d %u %u %u ", e.no, e.meth, e.off, e.steps); value(&e); PR("\n");
}
static void replay(const u8 *in, size_t n) {
  size_t at = 0;
  while (at < n) {
    u32 tn = le16(in + at), place; const u8 *t = in + at + 2; at += 2 + tn;
    u32 cn = le16(in + at); const u8 *c = in + at + 2; at += 2 + cn;
    u32 na = in[at++]; i64 args[256];
    for (u32 i = 0; i < na; i++) { args[i] = (i64)le64(in + at); at += 8; }
    u32 budget = le32(in + at); at += 4;
    int r = load(&M, t, tn, c, cn, &place);
    if (r) { PR("load %d %u | check %d 0 %u | run %d 0 %u 0 - | -\n", r, place, r, place, r, place); continue; }
    u32 a, b; int ck = check(&M, &a, &b);
    PR("load 0 0 | check %d %u %u | run ", ck, a, b);
    if (!ck) PREPARE(&M);
    r = START(&M, !ck, args, na, budget);
    if (r) { PR("%d 0 0 0 - | -\n", r); continue; }
    Ending e; RUN(&M, !ck, budget, &e);
    PR("%d %u %u %u ", e.no, e.meth, e.off, e.steps); value(&e); PR(" | ");
    DUMP(&M, !ck);
    PR("\n");
  }
}
static double now(void) { struct timespec t; clock_gettime(CLOCK_MONOTONIC, &t); return t.tv_sec * 1e9 + t.tv_nsec; }
static double cpu(void) { struct timespec t; clock_gettime(CLOCK_THREAD_CPUTIME_ID, &t); return t.tv_sec * 1e9 + t.tv_nsec; }
static u8 *slurp(FILE *f, size_t *n) {
  size_t cap = 1 << 16; u8 *b = malloc(cap + 64); *n = 0;
  for (size_t k; (k = fread(b + *n, 1, cap - *n, f)) > 0;) { *n += k; if (*n == cap) b = realloc(b, (cap *= 2) + 64); }
  return b;
}
int main(int ac, char **av) {
  size_t n; const char *mode = ac > 1 ? av[1] : "";
  if (!strcmp(mode, "turn")) { u8 *b = slurp(stdin, &n); turn(b, n); }
  else if (!strcmp(mode, "replay")) { u8 *b = slurp(stdin, &n); replay(b, n); }
  else if (!strncmp(mode, "bench", 5) && ac > 3) {
    FILE *f = fopen(av[2], "rb"); if (!f) { perror(av[2]); return 1; }
    u8 *b = slurp(f, &n); int N = atoi(av[3]); u32 k = le16(b), place, x, y; Ending e = {0};
    int only = !strcmp(mode, "bench-check");
    double bl = 1e18, bc = 1e18, bt = 1e18, tot;
    for (int i = 0; i < (only ? N : 1); i++) {
      double t0 = now(); int r = load(&M, b + 2, k, b + 2 + k, n - 2 - k, &place);
      double t1 = now(); int c = r ? 0 : check(&M, &x, &y);
      double t2 = now();
      if (r || c) { printf("load %d at %u, check %d at %u %u\n", r, place, c, x, y); return 1; }
      if (t1 - t0 < bl) bl = t1 - t0;
      if (t2 - t1 < bc) bc = t2 - t1;
      if (t2 - t0 < bt) bt = t2 - t0;
    }
    u32 cb = 0; for (u32 r = 1; r <= M.nmeth; r++) cb += M.meth[r].len;
    if (only) { printf("%s: code %u tables %u bytes; best load %.0f ns, check %.0f ns, both %.0f ns = %.3f ns/code byte (check alone %.3f)\n", av[2], cb, k, bl, bc, bt, bt / cb, bc / cb); return 0; }
    PREPARE(&M);
    double best = 1e18, c0 = cpu(); tot = 0;
    for (int i = 0; i < N; i++) {
      double t0 = now();
      if (START(&M, 1, 0, 0, 1000000)) { printf("start refused\n"); return 1; }
      RUN(&M, 1, 1000000, &e);
      double t1 = now() - t0; tot += e.steps; if (t1 < best) best = t1;
    }
    double c1 = cpu() - c0;
    PR("%s: %d %u %u %u ", av[2], e.no, e.meth, e.off, e.steps); value(&e);
    PR("  best %.3f ns/step (wall), mean %.3f ns/step (cpu)\n", best / e.steps, c1 / tot);
  } else { fprintf(stderr, "usage: twin turn|replay < input; twin bench|bench-check FILE N\n"); return 2; }
  fwrite(out, 1, outn, stdout);
  return 0;
}
