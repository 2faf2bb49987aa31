/* Each end of a call: embedding_ends [refuse]. With `refuse`, linked with --wrap=malloc, --wrap=realloc and --wrap=free, each
   allocation of a call is refused in turn. It ends with the numbers of what passed and failed. */
#include "tilugba.h"
#include <stdio.h>
#include <stdlib.h>
#include <string.h>

#define PORTFOLIO "portfolio 1;\namounts 2;\nparty A, B;\nasset EUR;\n"
#define LOAN PORTFOLIO "contract loan = both(scale(100.00, pay(EUR, A, B)), after(90, scale(105.00, pay(EUR, B, A))));\n"
#define OPTION PORTFOLIO "num FX : 4 in 0.5000 .. 2.0000;\ncontract c = after(90, scale(round(half_even, 2, " \
                         "(max((obs(FX, 0) - 1.0000), 0.0000) * 100.00)), pay(EUR, A, B)));\n"
#define REFUSED PORTFOLIO "contract loan = scale(100.005, pay(EUR, A, B));\n"
/* Code of which eleven scenarios together may be worth more than the numbers of the program hold. */
#define GREAT "payoff 1;\namounts 2;\nstart 0;\nparty A, B;\nasset EUR;\nnum FX : 4 in 0.5000 .. 2.0000;\n" \
              "code c = scale(1000000000000000000000000.00, cut(0, pay(0, EUR, A, B)));\n"
#define IN(name) name ",FX,0,1.0000\n"
#define TEN IN("a") IN("b") IN("c") IN("d") IN("e") IN("f") IN("g") IN("h") IN("i") IN("j")
#define PLANS "schedules 1;\namounts 2;\nparty A, B;\nasset EUR;\nleg rent = 25.00 of EUR from A to B first 0 every 30 times 4;\n"
#define FLOWS "loan,0,A,B,EUR,100.00\nloan,90,B,A,EUR,105.00\n"
#define COUNT(array) (sizeof(array) / sizeof *(array))

enum { ROOM = 256, AROUND = 16, PASSED_OVER = 77 };

static unsigned passed, failed;

static void judge(int good, const char *what) {
  if (good) passed++;
  else failed++, printf("%s\n", what);
}

/* A byte more than a file may have. */
static const uint8_t LONG[(1 << 24) + 1];

static const struct tilugba_file FILES[] = {
    {TILUGBA_TEXT("other"), TILUGBA_TEXT("portfolio 9;")},
    {TILUGBA_TEXT("loan.txt"), TILUGBA_TEXT(LOAN)},
    {TILUGBA_TEXT("loan.txt"), TILUGBA_TEXT("the second of the name does not count")},
    {TILUGBA_TEXT("bad.txt"), TILUGBA_TEXT("portfolio 1;\namounts 2\nparty A;\n")},
    {TILUGBA_TEXT("refused.txt"), TILUGBA_TEXT(REFUSED)},
    {TILUGBA_TEXT("plans.txt"), TILUGBA_TEXT(PLANS)},
    {TILUGBA_TEXT("long.txt"), {LONG, sizeof LONG}},
    {TILUGBA_TEXT("great.code"), TILUGBA_TEXT(GREAT)},
    {TILUGBA_TEXT("ten.csv"), TILUGBA_TEXT("scenario,label,day,value\n" TEN)},
    {TILUGBA_TEXT("eleven.csv"), TILUGBA_TEXT("scenario,label,day,value\n" TEN IN("k"))},
    {TILUGBA_TEXT("curve.csv"), TILUGBA_TEXT("offset,factor\n0,1\n")},
    {TILUGBA_TEXT("bad.csv"), TILUGBA_TEXT("label,day,value\nFX,90,1.2345\nGX,90,1.2345\n")},
    {TILUGBA_TEXT("option.txt"), TILUGBA_TEXT(OPTION)},
    {TILUGBA_TEXT("fixings.csv"), TILUGBA_TEXT("label,day,value\nFX,90,1.2345\n")},
    {TILUGBA_TEXT("none.csv"), TILUGBA_TEXT("label,day,value\n")},
    {TILUGBA_TEXT(""), TILUGBA_TEXT(LOAN)},
    {TILUGBA_TEXT("empty"), TILUGBA_TEXT("")},
};

/* A call with room in the middle of what has to stay as it is. */
struct call {
  uint8_t around[AROUND + ROOM + AROUND];
  size_t size;
  uint32_t status;
};

static void make(struct call *call, const struct tilugba_bytes *words, size_t count, size_t room_size) {
  memset(call->around, '.', sizeof call->around);
  call->size = 12345;
  call->status = tilugba_run(words, count, FILES, COUNT(FILES), call->around + AROUND, room_size, &call->size);
}

/* Whether the room holds this text at its front, and everything else is as it was. */
static int holds(const struct call *call, const char *text) {
  size_t size = strlen(text);
  if (memcmp(call->around + AROUND, text, size)) return 0;
  for (size_t i = 0; i < sizeof call->around; i++)
    if ((i < AROUND || i >= AROUND + size) && call->around[i] != '.') return 0;
  return 1;
}

static void gives(const char *what, const struct tilugba_bytes *words, size_t count, uint32_t status, const char *text) {
  struct call call;
  size_t size = strlen(text);
  make(&call, words, count, ROOM);
  judge(call.status == status && call.size == size && holds(&call, text), what);
  make(&call, words, count, size);
  judge(call.status == status && call.size == size && holds(&call, text), "room for the text and no more");
  if (!size) return;
  make(&call, words, count, size - 1);
  judge(call.status == status && call.size == size && holds(&call, ""), "a byte of room too little: the room is as it was");
  size_t told = 0;
  judge(tilugba_run(words, count, FILES, COUNT(FILES), NULL, 0, &told) == status && told == size, "no room, and null for it");
}

#define WORDS(...) (const struct tilugba_bytes[]){__VA_ARGS__}, COUNT(((const struct tilugba_bytes[]){__VA_ARGS__}))
#define T(literal) TILUGBA_TEXT(literal)
#define VALUED T("great.code"), T("none.csv"), T("curve.csv"), T("--at=0"), T("--from=A"), T("--to=B"), T("--asset=EUR")
#define OVER(set) T("great.code"), T(set), T("curve.csv"), T("--at=0"), T("--from=A"), T("--to=B"), T("--asset=EUR"), T("--mean=floor")

static void each_end(void) {
  gives("flows", WORDS(T("flows"), T("loan.txt")), 0, FLOWS);
  gives("an empty name", WORDS(T("flows"), T("")), 0, FLOWS);
  gives("check", WORDS(T("check"), T("loan.txt")), 0, "loan accepted start 0 scale 2 total 205.00 horizon 91\n");
  gives("a refused contract", WORDS(T("flows"), T("refused.txt")), 1, "fault refused loan scale node 0\n");
  gives("no command", WORDS(T("flaws"), T("loan.txt")), 2, "fault usage\n");
  gives("a file that is not lent", WORDS(T("flows"), T("loan")), 3, "fault read 1\n");
  gives("a file that is too long", WORDS(T("check"), T("long.txt")), 5, "fault too long 1\n");
  gives("a text that does not parse", WORDS(T("check"), T("bad.txt")), 6, "fault text syntax line 3 column 1\n");
  gives("an empty text", WORDS(T("check"), T("empty")), 6, "fault text syntax line 1 column 1\n");
  gives("a row that is not taken", WORDS(T("flows"), T("option.txt"), T("bad.csv")), 7, "fault row file 2 record 3 label\n");
  gives("a fixing that is missing", WORDS(T("flows"), T("option.txt")), 8, "fault missing FX 90\n");
  gives("a fixing", WORDS(T("flows"), T("option.txt"), T("fixings.csv")), 0, "c,90,A,B,EUR,23.45\n");
  gives("a name that nothing has", WORDS(T("flows"), T("loan.txt"), T("--contract=other")), 10, "fault unknown other\n");
  gives("a day out of range", WORDS(T("flows"), T("loan.txt"), T("--until=2000000")), 11, "fault day 2000000\n");
  gives("too many scenarios", WORDS(T("scenarios"), OVER("eleven.csv")), 12, "fault scenarios 11\n");
  gives("a word that is not UTF-8", WORDS(T("flows"), T("\xff")), 13, "");
  gives("the first word is not UTF-8", WORDS(T("\xc3"), T("loan.txt")), 13, "");
  gives("a word too many that is not UTF-8", WORDS(T("flows"), T("loan.txt"), T("a"), T("b"), T("\xed\xa0\x80")), 13, "");
  struct call call;
  memset(call.around, '.', sizeof call.around);
  call.size = 12345;
  call.status = tilugba_run(NULL, 0, NULL, 0, call.around + AROUND, ROOM, &call.size);
  judge(call.status == 2 && call.size == 12 && holds(&call, "fault usage\n"), "no words, no files, and null for both");
  judge(tilugba_abi() == TILUGBA_ABI, "the number of the surface");
}

#ifdef WRAPPED
static long calls, refused, alive;
void *__real_malloc(size_t);
void *__real_realloc(void *, size_t);
void __real_free(void *);

void *__wrap_malloc(size_t size) {
  void *at = ++calls == refused ? NULL : __real_malloc(size);
  alive += at != NULL;
  return at;
}

void *__wrap_realloc(void *was, size_t size) {
  void *at = ++calls == refused ? NULL : __real_realloc(was, size);
  alive += at && !was;
  return at;
}

void __wrap_free(void *at) {
  alive -= at != NULL;
  __real_free(at);
}

/* Refuses each allocation of a call in turn: the answer is 9 without a text, the room is as it was, and nothing is left over. */
static void refuse_each(const struct tilugba_bytes *words, size_t count, uint32_t status) {
  struct call call;
  refused = 0, calls = 0, alive = 0;
  make(&call, words, count, ROOM);
  long all = calls;
  judge(call.status == status && all > 0 && !alive, "a call that is refused nothing leaves nothing over");
  for (long number = 1; number <= all; number++) {
    refused = number, calls = 0, alive = 0;
    make(&call, words, count, ROOM);
    judge(call.status == 9 && !call.size && holds(&call, "") && !alive, "a call that is refused an allocation");
  }
  refused = 0;
}

static void refuse_all(void) {
  const struct tilugba_bytes novate[] = {T("novate"), T("loan.txt"), T("none.csv"), T("--to=30"), T("--contract=loan"),
                                         T("--old=A"), T("--new=B")};
  refuse_each(WORDS(T("flows"), T("loan.txt")), 0);
  refuse_each(WORDS(T("check"), T("loan.txt")), 0);
  refuse_each(WORDS(T("flows"), T("option.txt"), T("fixings.csv")), 0);
  refuse_each(WORDS(T("positions"), T("loan.txt")), 0);
  refuse_each(WORDS(T("settle"), T("loan.txt")), 0);
  refuse_each(WORDS(T("advance"), T("loan.txt"), T("none.csv"), T("--to=30")), 0);
  refuse_each(novate, COUNT(novate), 0);
  refuse_each(WORDS(T("payoff"), T("option.txt"), T("--contract=c")), 0);
  refuse_each(WORDS(T("migrate"), T("loan.txt")), 0);
  refuse_each(WORDS(T("check"), T("bad.txt")), 6);
  refuse_each(WORDS(T("expand"), T("plans.txt")), 0);
  refuse_each(WORDS(T("value"), VALUED), 0);
  refuse_each(WORDS(T("scenarios"), OVER("ten.csv")), 0);
  refuse_each(WORDS(T("sample"), T("1")), 0);
}
#else
static void refuse_all(void) { exit(PASSED_OVER); }
#endif

int main(int argc, char **argv) {
  if (argc > 1 && !strcmp(argv[1], "refuse")) refuse_all();
  else each_end();
  printf("%u passed, %u failed\n", passed, failed);
  return failed || !passed;
}
