//! A serial of twelve blanks, and one of a visible byte and eleven blanks, where no trace has them: in replicas built by
//! hand, in rows for the selection by itself, and for the writer. What the rules ask for is written down here.

use second::compare::show;
use second::entry::Entry;
use second::lines::LONGEST;
use second::random::Random;
use second::replica::{Acknowledged, Replica, VoteRow, ASKING, COLLECTING};
use second::vote::Vote;

use crate::arrays::entry_words;
use crate::asked::Asked;
use crate::events::Pair;
use crate::ffi;
use crate::model::LEAST_ROOM;

const BLANK: Entry = *b"            \0\0\0\x01";
const SHORTEST: Entry = *b"!           \0\0\0\x01";
const OTHER: Entry = *b"A1          \0\0\0\x01";

/// In texts these names stand for the three entries.
const NAMES: [(&str, &str); 3] = [
    ("BLANK", "20202020202020202020202000000001"),
    ("SHORTEST", "21202020202020202020202000000001"),
    ("OTHER", "41312020202020202020202000000001"),
];

/// What is asked about, a replica, the events it gets, and what is printed of them.
type Question = (&'static str, Replica, &'static str, &'static str);

pub fn check(asked: &mut Asked) -> Result<(), String> {
    let questions = [own_entries(), vote_rows(), acknowledgement_rows(), other_entries()];
    questions.into_iter().flatten().try_for_each(|question| ask(question, asked))?;
    select("BLANK", 15, asked)?;
    select("SHORTEST", 0, asked)?;
    write(asked)
}

/// Seat 2 of four, the leader of view 2, with no votes yet.
fn leader() -> Replica {
    Replica { n: 4, f: 1, seat: 2, view: 2, stage: COLLECTING, own: OTHER, ..Replica::BLANK }
}

/// The leader with this own entry. All four seats acknowledged another one, so that the margin is 1 where it counts.
fn owner_of(own: Entry) -> Replica {
    let mut replica = Replica { own, ..leader() };
    replica.acknowledged[..4].fill(Acknowledged { view: 1, entry: OTHER });
    replica
}

fn vote_for(entry: Entry) -> Vote {
    Vote { cast: true, view: 1, entry, mask: 0, verified: true }
}

/// Seat 0 voted for an entry, seats 1 and 2 for none.
fn votes_with(entry: Entry) -> Replica {
    let mut replica = leader();
    replica.votes[0] = VoteRow { filled: true, vote: vote_for(entry) };
    replica.votes[1..3].fill(VoteRow { filled: true, vote: Vote::NIL });
    replica
}

/// Three seats acknowledged an entry in view 1.
fn acknowledged_by_three(entry: Entry) -> Replica {
    let mut replica = leader();
    replica.acknowledged[..3].fill(Acknowledged { view: 1, entry });
    replica
}

const ALL_KINDS: &str = "S|P 2 + 2 OTHER 0000000000000003|A 0 + 2 OTHER|V 0 + 2 -|\
    Q 2 + 2 OTHER 3|V 0 + 2 -|V 1 + 2 -|V 3 + 2 -|C 0 + 2 OTHER|E 3|";

const TWO_VOTES: &str = "V 3 + 2 -|V 0 + 2 -|";

fn own_entries() -> Vec<Question> {
    vec![
        (
            "a blank own entry: 4 and margin 0 to every event",
            owner_of(BLANK),
            ALL_KINDS,
            "1 4 - 0 -|2 4 - 0 -|3 4 - 0 -|4 4 - 0 -|5 4 - 0 -|6 4 - 0 -|7 4 - 0 -|",
        ),
        (
            "an own entry with one visible byte: every event as ever",
            owner_of(SHORTEST),
            ALL_KINDS,
            "1 8 - 1 -|2 0 - 1 A 2 + 2 OTHER|3 0 - 0 -|4 0 - 0 -|5 0 - 0 C 2 + 2 OTHER|6 13 - 0 -|\
             7 0 - 0 V 2 + 3 2 OTHER 0000000000000003 +|",
        ),
    ]
}

fn vote_rows() -> Vec<Question> {
    vec![
        (
            "a vote row for a blank entry counts as empty: not sent, not chosen, not filled",
            votes_with(BLANK),
            TWO_VOTES,
            "1 0 - -3 Q 2 + 2 OTHER 3|V 1 + 2 -|V 2 + 2 -|V 3 + 2 -|2 13 - -3 -|",
        ),
        (
            "a vote row for an entry with one visible byte counts",
            votes_with(SHORTEST),
            TWO_VOTES,
            "1 0 - -3 Q 2 + 2 SHORTEST 4|V 0 + 2 1 SHORTEST 0000000000000000 +|V 1 + 2 -|V 2 + 2 -|V 3 + 2 -|\
             2 12 - -3 -|",
        ),
    ]
}

fn acknowledgement_rows() -> Vec<Question> {
    vec![
        (
            "acknowledgement rows for a blank entry count in the margin, and no more of them are taken",
            acknowledged_by_three(BLANK),
            "E 0|A 3 + 1 BLANK|",
            "1 5 - 0 -|2 10 - 0 -|",
        ),
        (
            "acknowledgement rows for an entry with one visible byte: it is decided",
            acknowledged_by_three(SHORTEST),
            "E 0|A 3 + 1 SHORTEST|",
            "1 5 - 0 -|2 0 SHORTEST 1 -|",
        ),
        (
            "a decision of a blank entry stays, and nothing else is decided",
            Replica { decided: true, decision: BLANK, ..acknowledged_by_three(SHORTEST) },
            "A 3 + 1 SHORTEST|",
            "1 0 - 1 -|",
        ),
    ]
}

/// The vote and the chosen entry of a replica.
fn other_entries() -> Vec<Question> {
    vec![
        (
            "a vote for a blank entry is sent as it stands",
            Replica { vote: vote_for(BLANK), ..leader() },
            "E 3|",
            "1 0 - -3 V 2 + 3 1 BLANK 0000000000000000 +|",
        ),
        (
            "a chosen entry that is blank: no confirmation fits",
            Replica { stage: ASKING, chosen: BLANK, ..leader() },
            "C 0 + 2 BLANK|C 0 + 2 OTHER|",
            "1 10 - -3 -|2 18 - -3 -|",
        ),
        (
            "a chosen entry with one visible byte is confirmed",
            Replica { stage: ASKING, chosen: SHORTEST, ..leader() },
            "C 0 + 2 SHORTEST|C 1 + 2 SHORTEST|",
            "1 0 - -3 -|2 0 - -3 P 2 + 2 SHORTEST 0000000000000003|",
        ),
    ]
}

/// A text as it is written above, with tabs, line ends and entries.
fn spelled(text: &str) -> Vec<u8> {
    let lines = text.replace(' ', "\t").replace('|', "\n");
    NAMES.iter().fold(lines, |lines, (name, digits)| lines.replace(name, digits)).into_bytes()
}

fn ask((what, replica, text, wanted): Question, asked: &mut Asked) -> Result<(), String> {
    let (text, wanted) = (spelled(text), spelled(wanted));
    let room = wanted.len() + LEAST_ROOM;
    let printed = Pair::new(replica).ask(&mut Random::new(0, 0), &text, room, asked);
    let printed = printed.map_err(|difference| format!("{what}: {difference}"))?.bytes;
    if printed == wanted {
        return Ok(());
    }
    Err(format!("{what}\n  wanted: {}\n  got:    {}", show(Some(&wanted)), show(Some(&printed))))
}

/// Three rows for view 2, one of them for the entry of this name: the number, and where it is 0 that entry is forced.
fn select(name: &str, wanted: u8, asked: &mut Asked) -> Result<(), String> {
    let text = spelled(&format!("V 0 + 2 1 {name} 0000000000000000 +|V 1 + 2 -|V 3 + 2 -|"));
    let (number, choice) = ffi::select(4, 1, 2, &text);
    asked.calls += 1;
    let forced = choice[0] == 2 && choice[1..] == entry_words(&SHORTEST);
    if number == wanted && (number != 0 || forced) {
        return Ok(());
    }
    Err(format!("the selection by itself over {}: got number {number}, choice {choice:x?}", show(Some(&text))))
}

/// The writer does not ask: an A for the blank entry is written.
fn write(asked: &mut Asked) -> Result<(), String> {
    let [high, low] = entry_words(&BLANK);
    let mut line = [0; LONGEST];
    let (number, length) = ffi::write(b'A', &[3, 1, 1, high, low, 0, 0, 0, 0, 0, 0, 0, 0], &mut line);
    asked.calls += 1;
    let wanted = spelled("A 3 + 1 BLANK|");
    if number == 0 && line.starts_with(&wanted) && length == wanted.len() as u64 {
        return Ok(());
    }
    Err(format!("the writer of an A for a blank entry: got number {number}, line {}", show(Some(&line))))
}
