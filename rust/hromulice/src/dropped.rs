//! Answers that are dropped: each call is refused where `unused_must_use` is an error, and compiles where its answer is used.

macro_rules! dropped {
    ($($name:ident: $call:literal),* $(,)?) => {$(
        #[doc = concat!("```compile_fail\n#![deny(unused_must_use)]\nuse hromulice::*;\n", $call, ";\n```")]
        #[doc = concat!("```no_run\n#![deny(unused_must_use)]\nuse hromulice::*;\nlet _answer = ", $call, ";\n```")]
        pub struct $name;
    )*};
}

dropped! {
    Whole: "check(&[], Lengths::NONE)",
    Decoded: "decode(&[], Lengths::NONE, &mut [])",
    Begun: "Check::new(Lengths::NONE)",
    InParts: "Check::new(Lengths::NONE).report()",
    Accepted: "check(&[], Lengths::NONE).is_accepted()",
    Refused: "check(&[], Lengths::NONE).refusal()",
    Needed: "check(&[], Lengths::NONE).needed()",
    WithReport: "check(&[], Lengths::NONE).reported()",
    Touched: "check(&[], Lengths::NONE).reported().unwrap().window(Buffer::Source)",
    CommandRead: "read_command(&[], &mut [])",
    RecordWritten: "write_command(&[], &mut [])",
    SheetAsked: "ask_mount(&[], 0, 7, 1)",
    SheetAdded: "add_mount(&mut [], 0, 7, 1, 0)",
    Signed: "mount_vector(0, 1, 2)",
    SideNumber: "Side::Port.number()",
    Text: "meaning(1)",
    Edition: "version()",
    Size: "state_words()",
}
