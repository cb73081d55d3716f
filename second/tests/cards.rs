//! The cards of `cards/`: each is judged, and holds, what the text beside it says.

use second::cards::{described, files};

#[test]
fn each_card_holds_what_its_text_says() {
    let cards = files();
    assert!(cards.len() >= 6, "{} cards", cards.len());
    for (name, card) in cards {
        let path = format!("{}/../cards/{name}.txt", env!("CARGO_MANIFEST_DIR"));
        let text = std::fs::read_to_string(&path).expect("the text beside a card");
        assert_eq!(described(&card), text, "{name}");
    }
}
