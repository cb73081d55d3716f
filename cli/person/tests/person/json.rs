//! Answers for programs: one object in one line, for refusals too.

use person::Desk;

#[track_caller]
fn says(desk: &Desk, line: &str, input: &[u8], status: i32, rest: &str) {
    let ran = desk.pipe(line, input);
    let done = status == 0;
    let wanted = format!("{{\"done\":{done},\"asked\":\"lamporchid {line}\",{rest}}}\n");
    assert_eq!((ran.status, ran.err.as_str()), (status, ""), "{ran:?}");
    assert_eq!(String::from_utf8_lossy(&ran.out), wanted);
}

#[test]
fn every_command_answers() {
    let desk = Desk::new("json");
    // $S is the card's shape, $A the list's name.
    let answers: [(&str, &[u8], &str); 12] = [
        ("format c --blocks 4 --size 64", b"", "$S,'bytes':343"),
        ("put c a", b"ro", "$A,'size':2,$S,'free':1"),
        ("append c a", b"ws", "$A,'size':4,$S,'free':1"),
        ("truncate c a 3", b"", "$A,'size':3,$S,'free':1"),
        ("check c", b"", "'lists':1,$S,'free':1"),
        ("room c", b"", "$S,'free':1,'fits':64"),
        ("ls c", b"", "'lists':[{$A,'size':3}],$S,'free':1"),
        ("get c a", b"", "$A,'size':3,'contents':'726f77'"),
        ("get c a out", b"", "$A,'size':3,'file':'out'"),
        ("cp c a c a", b"", "$A,'size':3,$S,'free':1"),
        (
            "map c",
            b"",
            "$S,'free':[3],'table':{'data':[0],'redirectors':[]},'root':{'data':[1],'redirectors':[]},\
             'lists':[{$A,'size':3,'data':[2],'redirectors':[]}]",
        ),
        ("rm c a", b"", "$A,$S,'free':3"),
    ];
    for (line, input, answer) in answers {
        let answer = answer
            .replace("$S", "'blocks':4,'block_size':64")
            .replace("$A", "'name':'a','hex':'61'");
        says(&desk, &format!("{line} --json"), input, 0, &answer.replace('\'', "\""));
    }
}

#[test]
fn refusals_answer_too() {
    let desk = Desk::with_card("json-refusals");
    let no = |number, name: &str, rule, words: &str, next: &str| {
        format!("\"number\":{number},\"refusal\":\"{name}\",\"rule\":{rule},\"words\":\"{words}\",\"next\":\"{next}\"")
    };
    let room = no(
        7,
        "NO ROOM",
        0,
        "'a' needs 4 blocks, 3 are free",
        "nothing was changed; remove a list with 'lamporchid rm c NAME', or take a larger card",
    );
    says(&desk, "put c a --json", &[0; 65], 7, &room);
    let usage = no(
        64,
        "USAGE",
        0,
        "there is no command 'no'",
        "'lamporchid --help' shows them all",
    );
    says(&desk, "no --json", b"", 64, &usage);
    let file = no(
        74,
        "FILE",
        0,
        "cannot read none: there is no such file or folder",
        "nothing was changed; look at how the path is spelt",
    );
    says(&desk, "ls none --json", b"", 74, &file);
    desk.write("c", b"YAK");
    let damaged = no(
        1,
        "DAMAGED",
        1,
        "c breaks rule 1: it is shorter than the 87 bytes that a card begins with",
        "see that c is the file you meant; if it is, go back to its last good copy",
    );
    says(&desk, "check c --json", b"", 1, &damaged);
}
