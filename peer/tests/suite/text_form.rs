//! The text form, both ways.

use peer::book::{Book, MAX_STEPS};
use peer::generate::generate;
use peer::text;

/// One line of every form, with values that no machine has among them.
const EVERY_FORM: &str = "\
stores 255
actor home 0 list 0 2
actor home 200 list -
actor home 7 list 0 1 2 3 4 5 6 7
send 0 1 own 0 data 7 causes -
send 255 254 own 253 data 4294967295 causes 0 7 15
receive 0
pre-check 1
send-record 2
timeout 0 store 2
take-record store 0 key 1 role 0
take-ack store 0 key 1 role 1
post-check 3
take-repair key 0 role 255
send-update key 15 role 1
take-update store 2 key 0 role 0
take-uack store 2 key 0 role 0
coordinator-timeout key 4 role 1
lose record store 0 key 0 role 0
lose ack store 0 key 0 role 0
lose update store 0 key 0 role 0
lose uack store 0 key 0 role 0
lose 4 store 0 key 0 role 0
crash 1
restart 1
checkpoint 1
duplicate record store 0 key 0 role 0
duplicate uack store 255 key 0 role 1
duplicate 4 store 0 key 0 role 0
";

fn error(text: &str) -> String {
    text::read(text).expect_err("the text is wrong").to_string()
}

#[test]
fn the_readme_shows_every_form() {
    let setup = [text::STORES_FORM, text::ACTOR_FORM];
    let forms = [&setup[..], &text::STEP_FORMS].concat().join("\n");
    assert!(include_str!("../../README.md").contains(&format!("```\n{forms}\n```")));
}

#[test]
fn every_form_comes_back_as_it_was() {
    let book = text::read(EVERY_FORM).expect("the text is well formed");
    assert_eq!(text::write(&book), EVERY_FORM);
    assert_eq!(Book::read(&book.bytes()), Ok(book));
}

#[test]
fn generated_books_come_back_as_they_were() {
    for seed in 0..200 {
        let bytes = generate(seed);
        if let Ok(book) = Book::read(&bytes) {
            assert_eq!(book.bytes(), bytes, "seed {seed}");
            assert_eq!(text::read(&text::write(&book)), Ok(book), "seed {seed}");
        }
    }
}

#[test]
fn comments_blank_lines_spaces_and_order_in_a_set_dont_matter() {
    let plain = "stores 3\nactor home 0 list 0 2\nlose ack store 0 key 0 role 0\n";
    let other =
        "# a book\n\n  stores 3 # three\n\tactor  home 0 list 2 0\nlose 1 store 0 key 0 role 0";
    assert_eq!(text::read(plain), text::read(other));
}

#[test]
fn a_book_without_actors_or_steps_has_a_text() {
    let book = Book { stores: 0, actors: Vec::new(), steps: Vec::new() };
    assert_eq!(text::write(&book), "stores 0\n");
    assert_eq!(text::read("stores 0"), Ok(book));
}

#[test]
fn errors_name_the_line_and_the_form() {
    assert_eq!(error(""), "line 1: `stores STORES` is missing");
    assert_eq!(error("# nothing\n\n"), "line 3: `stores STORES` is missing");
    assert_eq!(error("receive 0"), "line 1: `stores STORES` comes before `receive`");
    assert_eq!(error("stores 3\n\nstores 3"), "line 3: the stores are given already");
    assert_eq!(
        error("stores 3\nreceive 0\nactor home 0 list 0 1"),
        "line 3: an actor comes before the first step"
    );
    assert_eq!(error("stores 3\nrecieve 0"), "line 2: no line begins with `recieve`");
    assert_eq!(error("stores 3\nreceive"), "line 2: KEY is missing; the form is `receive KEY`");
    assert_eq!(
        error("stores 3\nreceive 0 1"),
        "line 2: `1` is too much; the form is `receive KEY`"
    );
    assert_eq!(
        error("stores 256"),
        "line 1: STORES is a number from 0 to 255, not `256`; the form is `stores STORES`"
    );
    assert_eq!(
        error("stores 3\ntimeout 0 key 2"),
        "line 2: `key` stands where `store` is expected; the form is `timeout ACTOR store STORE`"
    );
    assert_eq!(
        error("stores 3\ntimeout 0"),
        "line 2: `store` is missing; the form is `timeout ACTOR store STORE`"
    );
}

#[test]
fn values_have_their_ranges() {
    let send = |data: &str, causes: &str| {
        error(&format!("stores 3\nsend 0 1 own 0 data {data} causes {causes}"))
    };
    assert!(send("4294967296", "-").contains("DATA is a number from 0 to 4294967295"));
    assert!(send("+1", "-").contains("not `+1`"));
    assert!(send("-1", "-").contains("not `-1`"));
    assert!(send("7", "").contains("CAUSES is missing"));
    assert!(send("7", "16").contains("CAUSES is a number from 0 to 15, not `16`"));
    assert!(send("7", "3 3").contains("CAUSES has 3 twice"));
    assert!(send("7", "- 3").contains("`3` is too much"));
    assert!(error("stores 3\nactor home 0 list 8").contains("from 0 to 7, not `8`"));
    assert!(error("stores 3\nlose repair store 0 key 0 role 0").contains("not `repair`"));
}

#[test]
fn a_text_holds_no_more_than_a_book() {
    let actors = "actor home 0 list 0 1\n";
    assert!(text::read(&format!("stores 2\n{}", actors.repeat(255))).is_ok());
    let many = format!("stores 2\n{}", actors.repeat(256));
    assert_eq!(error(&many), "line 257: a book has at most 255 actors");
    let many = format!("stores 2\n{}", "crash 0\n".repeat(MAX_STEPS + 1));
    assert_eq!(error(&many), "line 4098: a book has at most 4096 steps");
}
