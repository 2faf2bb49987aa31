//! Calls: words that are no text, files that are not lent, texts that are longer than the room, and
//! threads.

use tilugba::{is_supported, run, Day, Decimal, Fault, Position, Verdict};

const HEAD: &str = "portfolio 1;\namounts 2;\nparty A, B, C;\nasset EUR;\n";

fn loan() -> String {
    let second = "after(90, scale(105.00, pay(EUR, B, A)))";
    format!("{HEAD}contract loan = both(scale(100.00, pay(EUR, A, B)), {second});\n")
}

#[test]
fn no_words_and_no_files() {
    let answer = run::<&str, &str, &str>(&[], &[]);
    assert_eq!(format!("{answer:?}"), "2: \"fault usage\\n\"");
    assert_eq!(answer.done(), Err(Fault::Usage));
}

#[test]
fn what_is_not_lent_is_not_read() {
    let answer = run(&["flows", "/etc/hostname"], &[("book", loan())]);
    assert_eq!(answer.flows(), Err(Fault::Read { place: 1 }));
}

#[test]
fn of_two_files_with_one_name_the_first_counts() {
    let answer = run(
        &["check", "book"],
        &[("book", loan()), ("book", String::new())],
    );
    let total = Decimal {
        mantissa: 20_500,
        decimals: 2,
    };
    let start = Some(0);
    let name = "loan".to_owned();
    assert_eq!(
        answer.verdicts(),
        Ok(vec![Verdict::Accepted {
            name,
            start,
            scale: 2,
            total,
            horizon: 91
        }])
    );
}

#[test]
fn a_word_that_is_not_utf_8() {
    let answer = run(&[&b"flows"[..], b"\xff"], &[("book", loan())]);
    assert_eq!((answer.status, answer.done()), (13, Err(Fault::NotUtf8)));
}

#[test]
fn a_text_that_is_longer_than_the_first_room() {
    let mut book = HEAD.to_owned();
    for number in 0..1000 {
        book += &format!("contract c{number} = after({number}, scale(1.00, pay(EUR, A, B)));\n");
    }
    let flows = run(&["flows", "book"], &[("book", book)])
        .flows()
        .expect("it is accepted");
    assert_eq!((flows.len(), flows[999].day), (1000, Day::Number(999)));
}

#[test]
fn rows_have_dates_and_signs() {
    let book = loan().replace("amounts 2;", "amounts 2;\norigin 2026-01-05;");
    let positions = run(&["positions", "book"], &[("book", book)])
        .positions()
        .expect("it is accepted");
    let wanted = Position {
        day: Day::Date {
            year: 2026,
            month: 1,
            day: 5,
        },
        party: "A".to_owned(),
        asset: "EUR".to_owned(),
        amount: Decimal {
            mantissa: -10_000,
            decimals: 2,
        },
    };
    assert_eq!(positions[0], wanted);
}

#[test]
fn decimals_and_days_are_written_as_they_were_read() {
    for text in [
        "0",
        "-1",
        "0.05",
        "-0.05",
        "100.00",
        "12345678901234567890123456789.012345678",
    ] {
        assert_eq!(
            text.parse::<Decimal>().map(|it| it.to_string()),
            Ok(text.to_owned())
        );
    }
    for text in [
        "", "-", ".5", "5.", "1e3", "+1", "1,5", " 1", "1.2.3", "1.-2",
    ] {
        assert!(text.parse::<Decimal>().is_err(), "{text}");
    }
    for text in ["0", "-12", "1100000", "2026-01-05"] {
        assert_eq!(
            text.parse::<Day>().map(|it| it.to_string()),
            Ok(text.to_owned())
        );
    }
    for text in ["", "-", "2026-1-5", "2026-01", "2026-01-05-06", "today"] {
        assert!(text.parse::<Day>().is_err(), "{text}");
    }
}

#[test]
fn threads_at_once() {
    assert!(is_supported());
    let loan = loan();
    std::thread::scope(|scope| {
        for _ in 0..4 {
            scope.spawn(|| {
                for _ in 0..500 {
                    let flows = run(&["flows", "book"], &[("book", &loan)]).flows();
                    assert_eq!(flows.map(|it| it.len()), Ok(2));
                }
            });
        }
    });
}
