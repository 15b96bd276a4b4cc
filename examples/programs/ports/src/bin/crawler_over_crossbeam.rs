//! A crawler of a made-up site. Workers fetch pages and find their links. The main thread keeps
//! which pages were seen, and asks for the others.

use crossbeam_channel::{unbounded, Receiver, Sender};
use std::collections::{BTreeMap, BTreeSet};
use std::fmt;
use std::thread::{self, JoinHandle};
use std::time::Duration;

const WORKERS: usize = 4;

/// A page's path, and the links on it. None if there is no such page.
type Page = (String, Option<Vec<String>>);

/// A site in memory, of this many pages.
#[derive(Clone, Copy)]
struct Site {
    pages: u64,
}

impl Site {
    /// The text of a page, after a while.
    fn fetch(self, path: &str) -> Option<String> {
        let number: u64 = path.strip_prefix("/page/")?.parse().ok()?;
        thread::sleep(Duration::from_micros(50 * (number % 7)));
        (number < self.pages).then(|| self.text(number))
    }

    fn text(self, number: u64) -> String {
        let nexts = [2 * number + 1, 2 * number + 2, number * number % self.pages];
        let link = |next| format!("<p>See <a href=\"/page/{next}\">page {next}</a>.</p>");
        let mut text = format!("<h1>Page {number}</h1>");
        text.extend(nexts.map(link));
        if number % 50 == 13 {
            text += "<p>This was on <a href=\"/news\">the news</a>.</p>";
        }
        text
    }
}

/// Where the links of a page lead.
fn links(text: &str) -> Vec<String> {
    let after = text.split("href=\"").skip(1);
    after.filter_map(|rest| rest.split_once('"')).map(|(link, _)| link.to_string()).collect()
}

/// Fetches pages until nobody asks for one more: how many.
fn work(site: Site, paths: Receiver<String>, pages: Sender<Page>) -> usize {
    let mut fetched = 0;
    for path in &paths {
        let found = site.fetch(&path).map(|text| links(&text));
        if pages.send((path, found)).is_err() {
            break;
        }
        fetched += 1;
    }
    fetched
}

/// What a crawl has found.
#[derive(Default)]
struct Report {
    /// The links of each page.
    pages: BTreeMap<String, Vec<String>>,
    broken: BTreeSet<String>,
    fetched: usize,
}

impl Report {
    fn add(&mut self, path: String, found: Option<Vec<String>>) {
        match found {
            Some(links) => drop(self.pages.insert(path, links)),
            None => drop(self.broken.insert(path)),
        }
    }

    /// How many links lead to the page that most lead to, and its path.
    fn best_known(&self) -> Option<(usize, &str)> {
        let mut counts = BTreeMap::new();
        for link in self.pages.values().flatten() {
            *counts.entry(link.as_str()).or_insert(0) += 1;
        }
        counts.into_iter().map(|(path, count)| (count, path)).max()
    }
}

impl fmt::Display for Report {
    fn fmt(&self, f: &mut fmt::Formatter<'_>) -> fmt::Result {
        let links: usize = self.pages.values().map(Vec::len).sum();
        writeln!(f, "{} pages were fetched", self.fetched)?;
        writeln!(f, "{} pages have {links} links", self.pages.len())?;
        writeln!(f, "{} links are broken", self.broken.len())?;
        if let Some((count, path)) = self.best_known() {
            writeln!(f, "{count} links lead to {path}")?;
        }
        Ok(())
    }
}

/// The workers, what they are asked, and what they found.
struct Crawl {
    workers: Vec<JoinHandle<usize>>,
    paths: Sender<String>,
    pages: Receiver<Page>,
    seen: BTreeSet<String>,
    awaited: usize,
}

impl Crawl {
    fn new(site: Site) -> Crawl {
        let (paths, asked) = unbounded();
        let (found, pages) = unbounded();
        let worker = |_| {
            let (asked, found) = (asked.clone(), found.clone());
            thread::spawn(move || work(site, asked, found))
        };
        Crawl {
            workers: (0..WORKERS).map(worker).collect(),
            paths,
            pages,
            seen: BTreeSet::new(),
            awaited: 0,
        }
    }

    /// Asks for a page, unless it was seen.
    fn ask(&mut self, path: &str) {
        if self.seen.insert(path.to_string()) {
            self.paths.send(path.to_string()).expect("the workers are there");
            self.awaited += 1;
        }
    }

    /// Fetches all that is linked from here.
    fn run(mut self, start: &str) -> Report {
        let mut report = Report::default();
        self.ask(start);
        while self.awaited > 0 {
            let (path, found) = self.pages.recv().expect("a worker is there");
            self.awaited -= 1;
            found.iter().flatten().for_each(|link| self.ask(link));
            report.add(path, found);
        }
        drop(self.paths);
        report.fetched = self.workers.into_iter().map(|worker| worker.join().unwrap()).sum();
        report
    }
}

fn main() {
    let site = Site { pages: 500 };
    print!("{}", Crawl::new(site).run("/page/0"));
}
