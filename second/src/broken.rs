//! Which of the fixed rules are broken, and the two orders that pick one.

/// Which of the fixed rules are broken, in the regulation's order.
#[derive(Clone, Copy, Debug, Default, PartialEq, Eq)]
pub struct Broken {
    /// Rule 2.
    pub article_6_1: bool,
    /// Rule 3.
    pub article_6_2: bool,
    /// Rule 4.
    pub article_6_3: bool,
    /// Rule 1.
    pub article_7: bool,
    /// Rule 5.
    pub article_8_2: bool,
}

impl Broken {
    /// From a list in the regulation's order.
    pub fn by_article(broken: [bool; 5]) -> Broken {
        let [article_6_1, article_6_2, article_6_3, article_7, article_8_2] = broken;
        Broken {
            article_6_1,
            article_6_2,
            article_6_3,
            article_7,
            article_8_2,
        }
    }

    /// Request 4: "articles 6(1), 6(2), 6(3), 7, 8(2)"; "0 or the place, 1 to 5, of
    /// the first of these broken".
    pub fn first_article(self) -> u8 {
        first([
            self.article_6_1,
            self.article_6_2,
            self.article_6_3,
            self.article_7,
            self.article_8_2,
        ])
    }

    /// "0 or the smallest broken rule of 1 to 5": article 7 is rule 1.
    pub fn smallest_rule(self) -> u8 {
        first([
            self.article_7,
            self.article_6_1,
            self.article_6_2,
            self.article_6_3,
            self.article_8_2,
        ])
    }
}

/// 0 or the place, from 1 on, of the first one broken.
fn first(order: [bool; 5]) -> u8 {
    match order.iter().position(|&broken| broken) {
        Some(index) => index as u8 + 1,
        None => 0,
    }
}
