//! What ends a differential run.

trials::differential! {
    /// A prefix that no label has, as well as a label, an answer without a case and a difference; each says which.
    fn check() {
        use trials::runs::tally::Tally;

        let labels = [("walk: up", 3), ("walk: down", 0)].map(|(label, count)| (label.into(), count)).into();
        let mut tally = Tally { cases: 3, labels, ..Tally::default() };
        tally.answers[0] = 3;
        let said = |tally: &Tally, answer: usize, prefix: &str| {
            let ended = std::panic::catch_unwind(|| tally.check(&[answer], &["walk: up", prefix]));
            ended.map_err(|why| why.downcast_ref::<String>().unwrap().clone())
        };
        assert_eq!(said(&tally, 0, "walk: up"), Ok(()));
        assert_eq!(said(&tally, 0, "walks"), Err("no label begins with: walks".into()));
        assert_eq!(said(&tally, 0, "walk"), Err("no case of: walk: down".into()));
        assert_eq!(said(&tally, 5, "walk: up"), Err("no case ended in refused 5".into()));
        tally.differences = 1;
        assert!(said(&tally, 0, "walk: up").unwrap_err().starts_with("1 of 3 differ"));
    }
}
