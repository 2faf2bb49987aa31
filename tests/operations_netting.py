"""join-positions, and night runs of positions, settle and novate, for tests/operations, whose functions `own` has."""

import random

PARTIES = ("A", "B", "C", "D", "E", "F")
HEAD = f"portfolio 2;\namounts 2;\nstart 5;\nparty {', '.join(PARTIES)};\nasset EUR : 2, JPY : 0;\nnum FX : 4 in 0.5000 .. 2.0000;\n"


def joins(own, title, want, status, *words, **how):
    own.gives(title, want, status, *own.tool("join-positions"), *words, **how)


def check_join(own):
    """Sums of positions, and what is no position."""
    own.fresh("join")
    own.put("a.csv", "0,A,EUR,-4.00\n0,B,EUR,3.00\n0,C,EUR,1.00\n")
    own.put("b.csv", "0,A,EUR,4.00\n0,D,EUR,-4.00\n2,B,USD,-0.5\n2,A,USD,0.5\n10,A,JPY,7\n10,B,JPY,-7\n")
    own.put("empty.csv", "")
    want = "0,B,EUR,3.00\n0,C,EUR,1.00\n0,D,EUR,-4.00\n2,A,USD,0.5\n2,B,USD,-0.5\n10,A,JPY,7\n10,B,JPY,-7\n"
    joins(own, "two files", want, 0, "a.csv", "b.csv")
    joins(own, "two files in the other order, and an empty one", want, 0, "--", "b.csv", "empty.csv", "a.csv")
    joins(own, "a file that is empty", "", 0, "empty.csv")
    big = "12345678901234567890123456.78"
    own.put("big.csv", f"2026-03-02,A,EUR,{big}\n2026-03-02,B,EUR,-{big}\n")
    joins(own, "great amounts on a date", big.join(("2026-03-02,A,EUR,", "\n2026-03-02,B,EUR,-")) + f"{big}\n", 0, "big.csv", "empty.csv")
    own.put("three.csv", "0,A,EUR,0.10\n0,B,EUR,0.20\n0,C,EUR,-0.30\n")
    joins(own, "cents", own.read("three.csv"), 0, "three.csv")
    for title, status, text in (
        ("a line too few", 1, "0,A,EUR,-4.00\n0,B,EUR,3.00\n"),
        ("an amount that is a cent off", 1, "0,A,EUR,-4.00\n0,B,EUR,4.01\n"),
        ("amounts of 0 in all, of two assets", 1, "0,A,EUR,-4.00\n0,B,USD,4.00\n"),
        ("amounts of 0 in all, of two days", 1, "0,A,EUR,-4.00\n1,B,EUR,4.00\n"),
        ("a last line that does not end", 7, "0,A,EUR,-4.00\n0,B,EUR,4.0"),
        ("a flow line", 7, "c,0,A,B,EUR,4.00\n"),
        ("a fault", 7, "fault missing FX 0\n"),
        ("an empty line", 7, "0,A,EUR,-4.00\n\n0,B,EUR,4.00\n"),
        ("dates and numbers", 7, "0,A,EUR,-4.00\n0,B,EUR,4.00\n2026-03-02,A,EUR,1.00\n2026-03-02,B,EUR,-1.00\n"),
        ("a date that is none", 7, "2026-02-30,A,EUR,-4.00\n2026-02-30,B,EUR,4.00\n"),
        ("an amount that is none", 7, "0,A,EUR,-4.\n0,B,EUR,4.\n"),
    ):
        own.put("wrong.csv", text)
        joins(own, title, "", status, "wrong.csv")
        joins(own, f"{title}, behind another file", "", status, "a.csv", "wrong.csv")
    joins(own, "no file", "", 2)
    joins(own, "a file that is not there", "", 3, "a.csv", "nofile.csv")
    own.put("bytes.csv", "")
    with open("bytes.csv", "wb") as file:
        file.write(b"0,A,EUR,\xff\n")
    joins(own, "a file that is not UTF-8", "", 7, "bytes.csv")
    with open("/dev/full", "wb") as full:
        joins(own, "a full device", "", 4, "a.csv", stdout=full)


def some_trade(dice, name):
    """A contract between two parties, by a rate here and there, and the text of its payment."""
    one, other = dice.sample(PARTIES, 2)
    asset = dice.choice(("EUR", "JPY"))
    size = dice.randrange(1, 10_000)
    amount = f"{size}.{dice.randrange(100):02}" if asset == "EUR" else f"{size}"
    if dice.randrange(4) == 0:
        amount = f"round(half_even, {2 if asset == 'EUR' else 0}, (obs(FX, 0) * {size}))"
    return f"contract {name} = after({dice.randrange(4)}, scale({amount}, pay({asset}, {one}, {other})));\n"


def check_join_of_books(own):
    """The positions of many books, joined, are those of one book of all their contracts; and so are night runs of the three commands."""
    own.fresh("join_of_books")
    dice = random.Random(37)
    own.put("fixings.csv", "label,day,value\n" + "".join(f"FX,{day},{dice.randrange(5000, 20000) / 10000:.4f}\n" for day in range(5, 10)))
    trades = [[some_trade(dice, f"c{place}_{number}") for number in range(dice.randrange(6))] for place in range(25)]
    books = [f"books/{place}.txt" for place in range(25)]
    for book, own_trades in zip(books, trades):
        own.put(book, HEAD + "".join(own_trades) + "contract loan = after(3, scale(2.00, pay(EUR, A, B)));\n")
    loans = "".join(f"contract loan_{place} = after(3, scale(2.00, pay(EUR, A, B)));\n" for place in range(25))
    own.put("all.txt", HEAD + "".join(trade for own_trades in trades for trade in own_trades) + loans)
    own.nights("positions", [own.counted(25, 25, 0, 0)], 0, "positions {} fixings.csv", books, "positions")
    own.nights("positions again", [own.counted(25, 0, 25, 0)], 0, "positions {} fixings.csv", books, "positions")
    files = [f"positions/{place}.txt" for place in range(25)]
    joined = own.run(*own.tool("join-positions"), *files)[0]
    one = own.run(own.program, "positions", "all.txt", "fixings.csv")[0]
    own.judge("positions of many books", one.count("\n") > 20 and joined == "".join(sorted(one.splitlines(True), key=by_name)), joined)
    own.nights("settle", [own.counted(25, 25, 0, 0)], 0, "settle {} --until 7 fixings.csv", books, "settle")
    same = [own.read(f"settle/{place}.txt") == own.run(own.program, "settle", book, "fixings.csv", "--until", "7")[0] for place, book in enumerate(books)]
    own.judge("settlements by night", all(same), same)
    words = "novate {} fixings.csv --to 6 --contract loan --old A --new C"
    own.nights("novate", [own.counted(25, 25, 0, 0)], 0, words, books, "novated")
    left = [own.read(f"novated/{place}.txt").endswith("contract loan = after(2, scale(2.00, pay(EUR, C, B)));\n") for place in range(25)]
    own.judge("novations by night", all(left), left)
    own.put("books/3.txt", own.read("books/3.txt").replace("contract loan", "contract lent"))
    own.nights("a book without the contract", ["3.txt: status 10, fault unknown loan", own.counted(25, 0, 24, 1)], 10, words, books, "novated")


def by_name(line):
    day, party, asset, _ = line.split(",")
    return int(day), asset, party
