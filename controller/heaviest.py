#!/usr/bin/env python3
"""Writes days, inputs of the replay program, whose last call is one that costs the card most into a folder: heaviest.py FOLDER

A full book has 32 positions, each with details of the largest amount, and 63 messages of one sender; the register has 40 account lines, and there are
60 holidays, all around the day, so that most begin with its digits. A large
message has 4,096 bytes and 16 details, each with every line of text that it may have; what is left of the bytes goes first to those lines that the
MT103 of a return repeats. Where all details are returned, the card writes 16 posting lines, two MT199 and 16 MT103.

  opening       an opening with this register and these holidays
  returned      a large message for the last position of a full book, all details returned
  opened        the same with 31 positions; the message opens the one that stands before all others
  credited      as `returned`, with all details credited to the register's last account
  unframed      as `returned`, with a wrong end (1)
  over          as `returned`, then a second large message for the same position, which its sum takes over the limit (15)
  turn          a turn of the full book with 32 corrections, after the large message
  newer         the register without `END`, moved to the newer form
  older         the register, moved to the older form

In these days references and IBANs differ in their last characters only, and the wrong end is another closing line. The same days with `first-` in
front of their names have references and IBANs that differ in their first characters, the large message's before all others, and a lone LF near the end.

Both kinds stand there with `codes-` in front of their names too: behind the account lines there are 40 code lines, each for the last account, and the
second line behind 50H's account has ten digits, in a large message a code that is not listed. `newer` is not among them, and `older` is refused (19).
One day more has them only:

  coded         as `returned`, with the last code in each detail, so that all are credited by it

With `plain-` in front of their names the first days stand there without holidays.
"""
import itertools
import os
import sys

DAYS = ["0602%02d" % d for d in range(1, 29)] + ["0603%02d" % d for d in range(1, 6)]
TODAY, TOMORROW = "060306", "060307"
HOLIDAYS = ",".join(d for d in DAYS[:28] + ["0603%02d" % d for d in range(1, 32)] + ["0604%02d" % d for d in range(1, 4)] if d not in (TODAY, TOMORROW))
SENDER = "AAAABGSF"
ACCOUNTS = 41
CODES = 40
UNLISTED = "9" * 10
LARGE = 99  # the large message's number; the others count from 0
# a detail's lines of text, by field (50H, 52D, 59, 70) and place, in the order in which they are filled: those that a return repeats, then the others
FILLED = [(0, 0), (0, 1), (0, 2), (1, 0), (0, 3), (2, 0), (2, 1), (2, 2), (3, 0), (3, 1)]


def iban(account):
    """The IBAN of a bank's account number (001, annex 2)."""
    digits = "".join(str(int(c, 36)) for c in account + "BG00")
    return "BG%02d%s" % (98 - int(digits) % 97, account)


PAYER = iban("AAAA123110%08d" % 12345678)


def late_accounts():
    """Accounts that are 97 apart have equal control digits, so that two of them differ as late as can be."""
    return [iban("BNBG966130%08d" % (10000000 + 97 * n)) for n in range(ACCOUNTS)]


def early_accounts():
    """Of several banks, with equal control digits and equal numbers."""
    banks = ("".join(letters) for letters in itertools.product("BCD", *["ABCDEFGHIJKLMNOPQRSTUVWXYZ"] * 3))
    ibans = [iban(bank + "96613010000000") for bank in banks]
    return [x for x in ibans if x[2:4] == ibans[0][2:4]][:ACCOUNTS]


def lines(rows):
    return "".join(row + "\r\n" for row in rows)


def command(text, letter="M"):
    return "%s,%d\r\n%s" % (letter, len(text), text)


class Kind:
    """Days of one kind: the register's accounts and codes, the holidays, the reference of message n, and how an end is made wrong."""

    def __init__(self, accounts, codes, holidays, reference, wrong_end):
        self.accounts, self.codes, self.holidays, self.reference, self.wrong_end = accounts, codes, holidays, reference, wrong_end

    def register(self):
        return lines(self.accounts[:1] + [account + ",500000,500000" for account in self.accounts[1:]]
                     + [code + "," + self.accounts[-1] for code in self.codes] + ["END"])

    def opening(self):
        return "O,%s,%d,%d\r\n%s%s" % (TODAY, len(self.register()), len(self.holidays), self.register(), self.holidays)

    def detail(self, number, amount, date, account, texts):
        """A detail; `texts` are the lines of text of 50H, 52D, 59 and 70."""
        return ([":21:DETAIL/REF/%05d" % number, ":32B:BGN" + amount, ":50H:/" + PAYER + "PAY000001"] + texts[0]
                + [":52D:AAAA1231"] + texts[1] + [":59:/" + account] + texts[2]
                + [":70:CENTRB" + date, "BAEREF" + date + "N%011d" % number] + texts[3])

    def mt101(self, number, details):
        return lines(["101," + SENDER + ",BNBGBGSD", ":20:" + self.reference(number)] + [row for d in details for row in d] + ["-"])

    def small(self, number, date, amount):
        """A message with one detail."""
        return self.mt101(number, [self.detail(1, amount, date, self.accounts[-1], [["A"]] * 4)])

    def large(self, number, date, code, second=UNLISTED):
        """A message of 4,096 bytes: 16 details for the register's last account with a payment code, every line of text there; where the register has
        codes, the second line behind 50H's account is the one given."""
        room = [[1] * 4, [1], [1] * 3, [1] * 2]

        def whole():
            texts = [["T" * n for n in part] for part in room]
            if self.codes:
                texts[0][1] = second
            return self.mt101(number, [self.detail(k + 1, "059999999999,99", date, self.accounts[-1] + "PAY" + code, texts) for k in range(16)])

        left = (4096 - len(whole())) // 16
        for field, k in FILLED:
            if self.codes and (field, k) == (0, 1):
                continue
            more = min(34, left)
            room[field][k] += more
            left -= more
        message = whole()
        last = message.rindex("T\r\n") + 1
        return message[:last] + "T" * min(4096 - len(message), 15) + message[last:]

    def book(self, dates, last, messages=63):
        """Messages that open a position for each date with the largest amounts; the last position is left room."""
        firsts = [self.small(n, date, "0,01" if date == last else "999999999999,98") for n, date in enumerate(dates)]
        more = [self.small(n, last, "0,01") for n in range(len(dates), messages)]
        return self.opening() + "".join(map(command, firsts + more))

    def moves(self):
        """Those of the register, by day; a register with code lines has no older form."""
        older = {"older": command(self.register(), "P")}
        return older if self.codes else older | {"newer": command(self.register().removesuffix(lines(["END"])), "N")}

    def days(self):
        late, early = DAYS[-32:], DAYS[-31:]
        full = self.book(late, late[-1])
        returned = self.large(LARGE, late[-1], "999999")
        coded = {"coded": full + command(self.large(LARGE, late[-1], "999999", self.codes[-1]))} if self.codes else {}
        moves = self.moves() if self.holidays else {}
        return coded | moves | {
            "opening": self.opening(),
            "returned": full + command(returned),
            "opened": self.book(early, early[-1]) + command(self.large(LARGE, DAYS[0], "999999")),
            "credited": full + command(self.large(LARGE, late[-1], "500000")),
            "unframed": full + command(self.wrong_end(returned)),
            "over": self.book(late, late[-1], 62) + command(self.large(LARGE - 1, late[-1], "999999")) + command(returned),
            "turn": full + command(returned) + "T," + TOMORROW + "\r\n",
        }


LATE_CODES = ["%010d" % n for n in range(CODES)]
EARLY_CODES = ["%02d00000000" % n for n in range(CODES)]
LATE = lambda n: "MESSAGE/REF%05d" % n, lambda message: message[:-3] + "+\r\n"
EARLY = lambda n: "%05dMESSAGE/REF" % ((n + 1) % (LARGE + 1)), lambda message: message[:-6] + "\n" + message[-5:]
KINDS = {
    "": Kind(late_accounts(), [], HOLIDAYS, *LATE),
    "first-": Kind(early_accounts(), [], HOLIDAYS, *EARLY),
    "codes-": Kind(late_accounts(), LATE_CODES, HOLIDAYS, *LATE),
    "codes-first-": Kind(early_accounts(), EARLY_CODES, HOLIDAYS, *EARLY),
    "plain-": Kind(late_accounts(), [], "", *LATE),
}


def main(folder):
    os.makedirs(folder, exist_ok=True)
    for kind, days in KINDS.items():
        for name, day in days.days().items():
            with open(os.path.join(folder, kind + name + ".in"), "wb") as file:
                file.write(day.encode("ascii"))


if __name__ == "__main__":
    if len(sys.argv) != 2:
        sys.exit(__doc__)
    main(sys.argv[1])
