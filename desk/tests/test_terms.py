"""Trades by their terms. Without QuantLib these are passed over; tests/beside runs them in a Python
that has it.

That coupons are QuantLib's own, on random trades, is tried by tests/beside_tools/quantlib_terms.py.
"""

from __future__ import annotations

import importlib.util
import json
import unittest
from fractions import Fraction
from typing import Any

from tests.support import Ran, Room, run_desk, the_program

DECLS = """portfolio 2;
amounts 2;
origin 2026-01-05;
party Desk, Bank;
asset EUR, USD, JPY : 0;
num Rate : 5 in -0.02000 .. 0.15000;
num USDEUR : 4 in 0.5000 .. 2.0000;
flag F;
"""
WHO = {"creatorID": "Desk", "counterpartyID": "Bank"}
PAM = {
    **{"contractID": "pam", "contractType": "PAM", "contractRole": "RPA", **WHO},
    **{"currency": "EUR", "initialExchangeDate": "2026-01-15T00:00:00"},
    **{"maturityDate": "2026-07-15", "notionalPrincipal": 1000, "nominalInterestRate": 0.03},
    **{"dayCountConvention": "30E360", "cycleOfInterestPayment": "P3ML1"},
}
RESET = {"cycleOfRateReset": "P3ML1", "marketObjectCodeOfRateReset": "Rate"}
PRINCIPAL = {"cycleOfPrincipalRedemption": "P3ML1", "nextPrincipalRedemptionPayment": "600.00"}
LAM = {**PAM, "contractType": "LAM", **PRINCIPAL}
ANN = {name: it for name, it in {**LAM, "contractType": "ANN"}.items() if "Interest" not in name}
ANN |= {"nominalInterestRate": "0.03"}
SWPPV = {**PAM, **RESET, "contractType": "SWPPV", "contractRole": "RFL"}


def below(terms: dict[str, Any], kind: str) -> dict[str, Any]:
    return {"contractStructure": [{"object": terms, "referenceType": kind, "referenceRole": "UDL"}]}


LOAN = {name: it for name, it in {**PAM, **RESET}.items() if name not in (*WHO, "contractID")}
NAMED = {"contractID": "x", **WHO, "contractRole": "BUY"}
CAPFL = {**NAMED, "contractType": "CAPFL", "lifeCap": "0.02", **below(LOAN, "CNT")}
OPTNS = {**NAMED, "contractType": "OPTNS", "currency": "EUR", "optionType": "C"}
OPTNS |= {"optionStrike1": 1.1, "maturityDate": "2026-06-30", "notionalPrincipal": "1000"}
OPTNS |= below({"marketObjectCode": "USDEUR"}, "MOC")
FXOUT = {**NAMED, "contractType": "FXOUT", "currency": "EUR", "currency2": "USD"}
FXOUT |= {"notionalPrincipal": "900", "notionalPrincipal2": "1000", "maturityDate": "2026-06-30"}
HAS_QUANTLIB = importlib.util.find_spec("QuantLib") is not None


def setUpModule() -> None:
    if not HAS_QUANTLIB:
        print("passed over: QuantLib, which is not in this Python")
        raise unittest.SkipTest("QuantLib is not in this Python")


class Terms(Room):
    def terms(self, *trades: Any, words: str = "", decls: str = DECLS, name: str = "t.json") -> Ran:
        text = trades[0] if isinstance(trades[0], str) else json.dumps(trades)
        files = [self.file("decls.txt", decls), self.file(name, text)]
        ran = run_desk("terms", *files, *words.split())
        return Ran(ran.status, ran.output, ran.errors.replace(f"{self.folder}/", ""))

    def rows(self, *trades: Any, words: str = "") -> list[str]:
        """The rows of trades, without their names."""
        ran = self.terms(*trades, words=f"--rows {words}")
        self.assertEqual((ran.status, ran.errors), (0, ""))
        return [line.partition(",")[2].rstrip(",") for line in ran.output.splitlines()[1:]]

    def test_a_bullet(self) -> None:
        coupon = "Bank,Desk,EUR,,,,1000,90,360,half_even,0.03"
        wanted = [
            "2026-01-15,Desk,Bank,EUR,1000",
            f"2026-04-15,{coupon}",
            f"2026-07-15,{coupon}",
            "2026-07-15,Bank,Desk,EUR,1000",
        ]
        self.assertEqual(self.rows(PAM), wanted)
        other = [row.replace("Desk,Bank", "x").replace("Bank,Desk", "Desk,Bank") for row in wanted]
        other = [row.replace("x", "Bank,Desk") for row in other]
        self.assertEqual(self.rows({**PAM, "contractRole": "RPL"}), other)
        ran = self.terms(PAM)
        self.assertTrue(ran.output.startswith(DECLS + "contract pam = both("))
        flows = the_program().run("flows", ran.output.encode()).expected().decode()
        self.assertEqual(
            [line.split(",")[-1] for line in flows.splitlines()], ["1000.00", "7.50", "1007.50"]
        )

    def test_stubs_and_month_ends(self) -> None:
        dates = lambda **more: [it.partition(",")[0] for it in self.rows({**PAM, **more})][1:-1]
        long = {"maturityDate": "2026-08-20", "cycleOfInterestPayment": "P3ML0"}
        self.assertEqual(dates(**long), ["2026-04-15", "2026-08-20"])
        self.assertEqual(
            dates(**{**long, "cycleOfInterestPayment": "P3ML1"}),
            ["2026-04-15", "2026-07-15", "2026-08-20"],
        )
        ends = {
            "initialExchangeDate": "2026-02-28",
            "maturityDate": "2026-05-31",
            "cycleOfInterestPayment": "P1ML1",
        }
        self.assertEqual(
            dates(**ends, endOfMonthConvention="EOM"), ["2026-03-31", "2026-04-30", "2026-05-31"]
        )
        self.assertEqual(
            dates(**ends, endOfMonthConvention="SD"),
            ["2026-03-28", "2026-04-28", "2026-05-28", "2026-05-31"],
        )
        anchor = {"cycleAnchorDateOfInterestPayment": "2026-02-01"}
        self.assertEqual(dates(**anchor), ["2026-02-01", "2026-05-01", "2026-07-15"])

    def test_days_are_moved_before_or_behind_the_count(self) -> None:
        moved = {
            **PAM,
            "initialExchangeDate": "2026-01-10",
            "maturityDate": "2026-07-10",
            "dayCountConvention": "A365",
        }
        parts = lambda convention: [
            it.split(",")[0:1] + it.split(",")[8:9] for it in self.rows({**moved, **convention})
        ][1:-1]
        day = {"calendar": "MF"}
        self.assertEqual(
            parts({**day, "businessDayConvention": "SCF"}),
            [["2026-04-10", "88"], ["2026-07-10", "91"]],
        )
        self.assertEqual(
            parts({**day, "businessDayConvention": "CSF"}),
            [["2026-04-10", "90"], ["2026-07-10", "91"]],
        )
        closed = self.file("closed.txt", "2026-04-10\n")
        own = {"calendar": "CUSTOM", "businessDayConvention": "CSP"}
        words = f"--calendar {closed}"
        rows = self.rows({**moved, **own}, words=words)
        self.assertEqual(
            [row[:10] for row in rows], ["2026-01-09", "2026-04-09", "2026-07-10", "2026-07-10"]
        )
        ran = self.terms(moved, words=f"{words} --roll following")
        self.assertIn("after(98, scale(div(half_even, 2, ((0.03 * 1000) * 90), 365)", ran.output)

    def test_a_rate_that_is_observed(self) -> None:
        floating = {
            **PAM,
            **RESET,
            "rateSpread": "0.0100",
            "lifeFloor": 0.015,
            "lifeCap": "0.05",
            "fixingPeriod": "P2D",
            "calendar": "TARGET",
        }
        rows = self.rows(floating)
        self.assertEqual(
            rows[1],
            "2026-04-15,Bank,Desk,EUR,,Rate,2026-01-13,1000,90,360,half_even,0.01,0.005,0.04",
        )
        later = {**floating, "cycleAnchorDateOfRateReset": "2026-04-15"}
        self.assertTrue(self.rows(later)[1].endswith("1000,90,360,half_even,0.03"))
        self.assertIn(",Rate,2026-04-13,", self.rows(later)[2])
        self.assertTrue(self.rows({**later, "nextResetRate": 0.04})[2].endswith("half_even,0.04"))

    def test_loans_that_are_paid_back_in_parts(self) -> None:
        paid = [row.split(",") for row in self.rows(LAM)]
        self.assertEqual([row[4] or row[7] for row in paid], ["1000", "1000", "600", "400", "400"])
        paid = [row.split(",") for row in self.rows(ANN)]
        self.assertEqual(
            [row[4] or row[7] for row in paid], ["1000", "1000", "592.5", "407.50", "407.5"]
        )
        quick = {**ANN, "nextPrincipalRedemptionPayment": "2000"}
        self.assertEqual([row.split(",")[4] for row in self.rows(quick)], ["1000", "", "1000"])
        after = {
            **ANN,
            "cycleAnchorDateOfPrincipalRedemption": "2026-07-15",
            "cycleOfInterestPayment": "P1ML1",
        }
        self.assertEqual(len(self.rows(after)), 8)

    def test_thirty_years_of_equal_payments(self) -> None:
        terms = {**ANN, "maturityDate": "2056-01-15", "cycleOfPrincipalRedemption": "P1ML1"}
        terms |= {"notionalPrincipal": 500000, "nextPrincipalRedemptionPayment": "2108.02"}
        rows = [row.split(",") for row in self.rows(terms)]
        self.assertEqual(len(rows), 721)
        left = 50_000_000
        for owed, paid in zip(rows[1:-2:2], rows[2:-2:2]):
            principal = 210_802 - round(Fraction(left, 400))
            self.assertEqual(
                (Fraction(owed[7]), Fraction(paid[4])),
                (Fraction(left, 100), Fraction(principal, 100)),
            )
            left -= principal
        self.assertEqual(Fraction(rows[-1][4]), Fraction(left, 100))

    def test_swaps_caps_and_floors(self) -> None:
        rows = self.rows(SWPPV)
        self.assertEqual(rows[0], "2026-04-15,Bank,Desk,EUR,,,,1000,90,360,half_even,0.03")
        self.assertEqual(rows[1], "2026-04-15,Desk,Bank,EUR,,Rate,2026-01-15,1000,90,360,half_even")
        self.assertEqual(len(rows), 4)
        premium = {"purchaseDate": "2026-01-06", "priceAtPurchaseDate": "12.5", "currency": "EUR"}
        rows = self.rows({**CAPFL, **premium})
        self.assertEqual(rows[0], "2026-01-06,Desk,Bank,EUR,12.5")
        self.assertEqual(
            rows[1], "2026-04-15,Bank,Desk,EUR,,Rate,2026-01-15,1000,90,360,half_even,-0.02,0.02"
        )
        floor = {name: it for name, it in CAPFL.items() if name != "lifeCap"} | {
            "lifeFloor": "0.02"
        }
        self.assertEqual(
            self.rows(floor)[0],
            "2026-04-15,Bank,Desk,EUR,,Rate,2026-01-15,-1000,90,360,half_even,-0.02,,0.02",
        )

    def test_options_and_currencies(self) -> None:
        call = "2026-06-30,Bank,Desk,EUR,,USDEUR,2026-06-30,1000,1,1,half_even,-1.1,1.1"
        self.assertEqual(self.rows(OPTNS), [call])
        put = {
            **OPTNS,
            "optionType": "P",
            "contractRole": "SEL",
            "settlementPeriod": "P2D",
            "calendar": "TARGET",
        }
        self.assertEqual(
            self.rows(put),
            ["2026-07-02,Desk,Bank,EUR,,USDEUR,2026-06-30,-1000,1,1,half_even,-1.1,,1.1"],
        )
        delivered = ["2026-06-30,Bank,Desk,EUR,900", "2026-06-30,Desk,Bank,USD,1000"]
        self.assertEqual(self.rows(FXOUT), delivered)
        cash = [delivered[0], "2026-06-30,Desk,Bank,EUR,,USDEUR,2026-06-30,1000,1,1,half_even"]
        self.assertEqual(self.rows({**FXOUT, "deliverySettlement": "S"}), cash)

    def test_csv_and_members(self) -> None:
        table = ",".join(PAM) + "\n" + ",".join(map(str, PAM.values())) + "\n"
        self.assertEqual(self.terms(table).output, self.terms(PAM).output)
        wrapped = json.dumps({"contracts": [PAM], "riskFactors": []})
        self.assertEqual(self.terms(wrapped).output, self.terms(PAM).output)
        self.assertEqual(self.terms(json.dumps(PAM)).output, self.terms(PAM).output)
        exact = json.dumps([PAM]).replace("0.03", "3.0e-2").replace("1000", "1000.000")
        self.assertEqual(self.terms(exact).output, self.terms(PAM).output)

    def test_the_rows_are_what_the_command_rows_takes(self) -> None:
        trades = [
            dict(it, contractID=f"t{at}")
            for at, it in enumerate((PAM, LAM, ANN, SWPPV, CAPFL, OPTNS, FXOUT))
        ]
        words = "--mode floor --roll modified"
        table = self.file("rows.csv", self.terms(*trades, words=f"{words} --rows").output)
        ran = run_desk("rows", self.file("decls.txt", DECLS), table, "--roll", "modified")
        self.assertEqual(ran.output, self.terms(*trades, words=words).output)

    def test_what_is_past_is_left_out(self) -> None:
        started = DECLS.replace("party", "start 101;\nparty")
        ran = self.terms(PAM, decls=started, words="--rows")
        self.assertEqual(
            ran.errors, "tilugba-desk terms: pam: 2 payments before 2026-04-16 left out\n"
        )
        self.assertEqual(
            [line[:14] for line in ran.output.splitlines()[1:]], ["pam,2026-07-15"] * 2
        )
        ran = self.terms(PAM, decls=DECLS.replace("party", "start 300;\nparty"))
        self.assertEqual(ran.status, 7)
        self.assertIn("trade 1: contractID: nothing is paid from 2026-11-01 on", ran.errors)

    def test_refused_by_a_field(self) -> None:
        without = lambda trade, *names: {
            name: it for name, it in trade.items() if name not in names
        }
        for trade, said in [
            (
                without(ANN, "nextPrincipalRedemptionPayment"),
                "nextPrincipalRedemptionPayment: ANN without it is not expressed",
            ),
            (
                without(PAM, "nominalInterestRate"),
                "nominalInterestRate: PAM without it is not expressed",
            ),
            (
                {**PAM, "contractType": "NAM"},
                "contractType: NAM is none of PAM, LAM, ANN, SWPPV, CAPFL, FXOUT, OPTNS",
            ),
            ({**PAM, "contractRole": "BUY"}, "contractRole: BUY is none of RPA, RPL"),
            (
                {**PAM, "contractID": "pam-1"},
                "contractID: 'pam-1' is no name of letters, digits and _; perhaps pam_1",
            ),
            ({**PAM, "creatorID": "Dsk"}, "creatorID: Dsk is no declared party; perhaps Desk"),
            (
                {**PAM, "counterpartyID": "Bnk"},
                "counterpartyID: Bnk is no declared party; perhaps Bank",
            ),
            ({**PAM, "currency": "GBP"}, "currency: GBP is no declared asset"),
            (
                {**PAM, "notionalPrincipal": "1000.005"},
                "notionalPrincipal: 1000.005 has 3 decimals, and at most 2",
            ),
            ({**PAM, "notionalPrincipal": "-1"}, "notionalPrincipal: -1 is below 0"),
            (
                {**PAM, "notionalPrincipal": True},
                "notionalPrincipal: it is neither a text nor a number",
            ),
            (
                {**PAM, "maturityDate": "2026-02-30"},
                "maturityDate: '2026-02-30' is no date YYYY-MM-DD",
            ),
            (
                {**PAM, "maturityDate": "2026-01-15"},
                "maturityDate: it is not after initialExchangeDate",
            ),
            (
                {**PAM, "maturityDate": "2500-01-15"},
                "maturityDate: 2500-01-15: the dates of QuantLib go from",
            ),
            (
                {**PAM, "dayCountConvention": "28E336"},
                "dayCountConvention: 28E336 is none of AA, AAISDA, A360",
            ),
            (
                {**PAM, "businessDayConvention": "SCX"},
                "businessDayConvention: SCX is none of NULL, NOS, SCF",
            ),
            (
                {**PAM, "calendar": "CUSTOM"},
                "calendar: CUSTOM is the calendar of --calendar, which is not given",
            ),
            (
                {**PAM, "calendar": "Mars"},
                "calendar: QuantLib has no calendar Mars; it has Argentina",
            ),
            (
                {**PAM, "cycleOfInterestPayment": "P3M"},
                "cycleOfInterestPayment: 'P3M' is none; a cycle is as P6ML1",
            ),
            ({**PAM, "cycleOfFee": "P3ML1"}, "cycleOfFee: it is not expressed for PAM"),
            ({**PAM, "scalingEffect": "INO"}, "scalingEffect: INO is not expressed for PAM"),
            ({**PAM, "rateMultiplier": "2"}, "rateMultiplier: 2 is not expressed for PAM"),
            (
                {**PAM, "rateSpread": "0.01"},
                "marketObjectCodeOfRateReset: it is missing, and there is rateSpread",
            ),
            (
                {**PAM, **RESET, "marketObjectCodeOfRateReset": "F"},
                "marketObjectCodeOfRateReset: F is no declared number",
            ),
            (
                {**PAM, **RESET, "cycleOfRateReset": "P1ML1"},
                "cycleOfRateReset: a rate is reset within a period of interest",
            ),
            (
                {**PAM, **RESET, "lifeFloor": "0.05", "lifeCap": "0.01"},
                "lifeFloor: 0.05 is above the cap 0.01",
            ),
            (
                {**PAM, **RESET, "fixingPeriod": "P1M"},
                "fixingPeriod: 'P1M' is no number of days, as P2D",
            ),
            (
                {**LAM, "cycleOfPrincipalRedemption": "P1ML1"},
                "cycleOfPrincipalRedemption: principal is paid back within a",
            ),
            (
                {**LAM, "statusDate": "2026-02-01"},
                "statusDate: it is after initialExchangeDate: give the first terms",
            ),
            ({**ANN, **RESET}, "cycleOfRateReset: it is not expressed for ANN"),
            (
                {**ANN, "cycleOfInterestPayment": "P1ML1"},
                "cycleOfInterestPayment: interest is paid between two payments",
            ),
            (
                without(SWPPV, "marketObjectCodeOfRateReset"),
                "marketObjectCodeOfRateReset: SWPPV without it is not",
            ),
            (
                {**SWPPV, "cycleAnchorDateOfRateReset": "2026-04-15"},
                "nominalInterestRate2: it is missing, and the first rate",
            ),
            ({**CAPFL, "lifeFloor": "0.01"}, "lifeCap: both are there"),
            (
                without(CAPFL, "lifeCap"),
                "lifeCap: CAPFL without it, or lifeFloor, is not expressed",
            ),
            (
                without(CAPFL, "contractStructure"),
                "contractStructure: CAPFL without it is not expressed",
            ),
            (
                {**CAPFL, **below({**LOAN, "contractType": "ANN"}, "CNT")},
                "contractStructure: object: contractType: a cap or",
            ),
            (
                {**CAPFL, **below({**LOAN, "cycleOfFee": "P1ML1"}, "CNT")},
                "contractStructure: object: cycleOfFee: it is not",
            ),
            (
                {**CAPFL, "maturityDate": "2030-01-01"},
                "maturityDate: it is not that of the underlying, 2026-07-15",
            ),
            ({**PAM, **below(PAM, "CNT")}, "contractStructure: not with PAM"),
            ({**OPTNS, "optionType": "CP"}, "optionType: CP is none of C, P"),
            (
                {**OPTNS, "optionExerciseType": "A"},
                "optionExerciseType: A is not expressed for OPTNS",
            ),
            (
                {**OPTNS, "deliverySettlement": "D"},
                "deliverySettlement: D is not expressed for OPTNS",
            ),
            (
                {**OPTNS, **below({"marketObjectCode": "GBPEUR"}, "MOC")},
                "contractStructure: object: marketObjectCode: GBPEUR is no",
            ),
            (
                {**FXOUT, "currency2": "JPY", "deliverySettlement": "S"},
                "currency2: in cash it wants the declared number JPYEUR",
            ),
            (
                {**FXOUT, "currency2": "JPY", "notionalPrincipal2": "0.5"},
                "notionalPrincipal2: 0.5 has 1 decimal, and at most 0",
            ),
            (
                {**FXOUT, "purchaseDate": "2026-01-06"},
                "priceAtPurchaseDate: it is missing: purchaseDate and",
            ),
            (
                {
                    **OPTNS,
                    "maturityDate": "2026-06-28",
                    "calendar": "MF",
                    "businessDayConvention": "CSP",
                },
                "maturityDate: it is after the payment, which is on 2026-06-26",
            ),
        ]:
            with self.subTest(said=said):
                good = {**PAM, "contractID": "good"}
                ran = self.terms(good, trade)
                self.assertEqual((ran.status, ran.output), (7, ""), ran.errors)
                begins = f"tilugba-desk terms: t.json: trade 2: {said}"
                self.assertTrue(ran.errors.startswith(begins), ran.errors)
                self.assertEqual(ran.errors.count("\n"), 1)

    def test_other_faults(self) -> None:
        for text, said in [
            ('[{"contractID": "a",', "t.json: line 1 column 21: "),
            ("[3]", "t.json: trade 1: it is no object of terms"),
            ('{"contracts": 3}', "t.json: contracts: it is no list"),
            (
                json.dumps([PAM, PAM]),
                "t.json: trade 2: contractID: pam is that of another one, trade 1",
            ),
            (
                '[{"contractID": "a", "contractID": "b"}]',
                "t.json: contractID is there twice in one trade",
            ),
            ("", "t.json: it is empty"),
            ("contractID,contractID\na,b\n", "t.json: record 1: contractID: it is there twice"),
            ("contractID,currency\na\n", "t.json: record 2: it has 1 field, and the header has 2"),
            (
                "contractID,contractStructure\na,b\n",
                "t.json: record 2: contractStructure: it is taken in JSON alone",
            ),
        ]:
            with self.subTest(said=said):
                ran = self.terms(text)
                self.assertEqual((ran.status, ran.output), (7, ""))
                self.assertTrue(ran.errors.startswith(f"tilugba-desk terms: {said}"), ran.errors)
        ran = self.terms(PAM, decls=DECLS.replace("origin 2026-01-05;\n", ""))
        self.assertIn("decls.txt: it has no origin, and trades have dates", ran.errors)
        ran = self.terms({**PAM, "notionalPrincipal": "9" * 30})
        self.assertEqual(ran.status, 1)
        self.assertIn(
            "t.json: trade 1: notionalPrincipal: the program refuses the payment by the rule bound",
            ran.errors,
        )


if __name__ == "__main__":
    unittest.main()
