//! Reads every page of the folder in PAGES and compares with its listing.

use std::path::PathBuf;
use std::{env, fs};

use baseline::listing::listing;

#[test]
fn pages_give_their_listings() {
    let Some(folder) = env::var_os("PAGES") else {
        eprintln!("PAGES names no folder: nothing compared");
        return;
    };
    let mut pages: Vec<PathBuf> = fs::read_dir(folder)
        .expect("PAGES is a folder")
        .map(|entry| entry.expect("an entry").path())
        .filter(|path| path.extension().is_some_and(|kind| kind == "page"))
        .collect();
    pages.sort();
    assert!(!pages.is_empty());
    let mut different = Vec::new();
    for path in &pages {
        let page = fs::read(path).expect("a page");
        let expected = fs::read(path.with_extension("listing")).expect("a listing");
        if listing(&page) != expected {
            different.push(path);
        }
    }
    eprintln!("{} pages, {} different", pages.len(), different.len());
    assert!(different.is_empty(), "{different:#?}");
}
