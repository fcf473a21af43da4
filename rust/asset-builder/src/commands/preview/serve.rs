//! `preview --serve`: the page on the loopback address, made anew when a file changes.

use super::page_now;
use crate::input::FilesAndPacks;
use crate::names::shown;
use crate::output::end_by;
use crate::preview::{policy, Maker};
use crate::run::{End, Run};
use notify::{EventKind, RecursiveMode, Watcher};
use std::collections::BTreeSet;
use std::net::{Ipv4Addr, SocketAddrV4, TcpListener};
use std::path::{Path, PathBuf};
use std::sync::atomic::{AtomicBool, AtomicU64, Ordering};
use std::sync::Arc;
use std::time::Duration;
use tiny_http::{Header, Method, Request, Response, Server};

/// How often a page is tried again, and after what time.
const TRIES: usize = 5;
const PAUSE: Duration = Duration::from_millis(60);

/// Serves the page until a signal ends it.
pub fn serve(run: &mut Run, maker: Maker, inputs: &FilesAndPacks, port: u16) -> End {
    // No other address can be asked for, and so no other machine can reach the page.
    let address = SocketAddrV4::new(Ipv4Addr::LOCALHOST, port);
    let listener = match TcpListener::bind(address) {
        Ok(listener) => listener,
        Err(error) => {
            run.fail(address, error);
            return Ok(());
        }
    };
    let port = listener.local_addr().map_or(port, |it| it.port());
    let server = match Server::from_listener(listener, None) {
        Ok(server) => Arc::new(server),
        Err(error) => {
            run.fail(address, error);
            return Ok(());
        }
    };
    let changes = Arc::new(AtomicU64::new(1));
    let _watcher = match watch(inputs.paths(), changes.clone()) {
        Ok(watcher) => watcher,
        Err(error) => {
            run.fail("changes of files", error);
            return Ok(());
        }
    };
    let ended = Arc::new(AtomicBool::new(false));
    end_by({
        let (server, ended) = (server.clone(), ended.clone());
        move || {
            ended.store(true, Ordering::SeqCst);
            server.unblock();
        }
    });
    run.print(&format!("http://127.0.0.1:{port}/\n"))?;
    run.flush()?;
    run.remark("Ctrl-C ends it\n");
    let mut served = Served {
        maker,
        inputs,
        port,
        page: None,
    };
    while !ended.load(Ordering::SeqCst) {
        match server.recv() {
            Ok(request) => served.answer(run, request, changes.load(Ordering::SeqCst)),
            Err(_) if ended.load(Ordering::SeqCst) => break,
            Err(error) => {
                run.fail("a request", error);
                break;
            }
        }
    }
    Ok(())
}

/// Counts each change of a file that is named, or of one below a folder that is named.
fn watch(paths: &[PathBuf], changes: Arc<AtomicU64>) -> notify::Result<impl Watcher> {
    let named = paths.to_vec();
    let mut watcher = notify::recommended_watcher(move |event: notify::Result<notify::Event>| {
        if event.map_or(true, |event| is_change(&event, &named)) {
            changes.fetch_add(1, Ordering::SeqCst);
        }
    })?;
    let folders: BTreeSet<(&Path, bool)> = paths.iter().map(|path| watched(path)).collect();
    for (folder, is_deep) in folders {
        let mode = match is_deep {
            true => RecursiveMode::Recursive,
            false => RecursiveMode::NonRecursive,
        };
        watcher.watch(folder, mode)?;
    }
    Ok(watcher)
}

/// Whether an event changes what is shown: a reading does not, nor does another file beside one that is named.
fn is_change(event: &notify::Event, named: &[PathBuf]) -> bool {
    if matches!(event.kind, EventKind::Access(_)) {
        return false;
    }
    let is_named = |changed: &PathBuf| {
        let mut named = named.iter();
        named.any(|it| it.is_dir() || it.file_name() == changed.file_name())
    };
    event.paths.is_empty() || event.paths.iter().any(is_named)
}

/// The folder whose changes are watched, and whether those below it count: of a file its own folder, since many programs
/// write a new file and give it the old one's name.
fn watched(path: &Path) -> (&Path, bool) {
    if path.is_dir() {
        return (path, true);
    }
    match path.parent() {
        Some(folder) if folder != Path::new("") => (folder, false),
        _ => (Path::new("."), false),
    }
}

/// What is served.
struct Served<'s> {
    maker: Maker<'s>,
    inputs: &'s FilesAndPacks,
    port: u16,
    /// The page, and the number of changes that it has seen.
    page: Option<(u64, Vec<u8>)>,
}

impl Served<'_> {
    fn answer(&mut self, run: &mut Run, request: Request, changes: u64) {
        let (status, kind, body) = self.answer_of(run, &request, changes);
        let headers = [
            ("Content-Type", kind),
            ("Content-Security-Policy", &policy(true)),
            ("Cache-Control", "no-store"),
            ("X-Content-Type-Options", "nosniff"),
            ("X-Frame-Options", "DENY"),
            ("Referrer-Policy", "no-referrer"),
            ("Cross-Origin-Resource-Policy", "same-origin"),
        ];
        let mut response = Response::from_data(body).with_status_code(status);
        if status == 503 {
            let again = Header::from_bytes("Refresh", "1");
            response.add_header(again.expect("a header of ours is one"));
        }
        for (name, value) in headers {
            let header = Header::from_bytes(name, value);
            response.add_header(header.expect("a header of ours is one"));
        }
        run.say(&format!(
            "{} {}: {status}\n",
            request.method(),
            shown(request.url())
        ));
        // Whoever has gone gets no answer.
        let _ = request.respond(response);
    }

    fn answer_of(
        &mut self,
        run: &mut Run,
        request: &Request,
        changes: u64,
    ) -> (u16, &'static str, Vec<u8>) {
        const TEXT: &str = "text/plain; charset=utf-8";
        let plain = |status, text: &str| (status, TEXT, format!("{text}\n").into_bytes());
        if !self.is_own_host(request) {
            return plain(403, "Only 127.0.0.1 and localhost are answered.");
        }
        if !matches!(request.method(), Method::Get | Method::Head) {
            return plain(405, "Only GET and HEAD are answered.");
        }
        match request.url() {
            "/version" => (200, TEXT, changes.to_string().into_bytes()),
            "/" => match self.page_of(changes) {
                Ok(page) => (200, "text/html; charset=utf-8", page),
                Err(why) => {
                    run.note(&format!("the page: {why}\n"));
                    plain(503, &format!("The page could not be made: {why}"))
                }
            },
            _ => plain(404, "There is nothing here; the page is at /."),
        }
    }

    /// Whether the request is for this server by its own name: another site's name may lead here as well, and its
    /// scripts must not read the page.
    fn is_own_host(&self, request: &Request) -> bool {
        let hosts = request.headers().iter().filter(|it| it.field.equiv("Host"));
        let hosts: Vec<&str> = hosts.map(|it| it.value.as_str()).collect();
        let own = ["127.0.0.1", "localhost"].map(|name| format!("{name}:{}", self.port));
        matches!(&hosts[..], [host] if own.iter().any(|it| it.eq_ignore_ascii_case(host)))
    }

    /// The page as of these changes, made anew if there were some.
    fn page_of(&mut self, changes: u64) -> std::io::Result<Vec<u8>> {
        if let Some((seen, page)) = &self.page {
            if *seen == changes {
                return Ok(page.clone());
            }
        }
        let mut made = page_now(self.maker, self.inputs, changes);
        for _ in 0..TRIES {
            if made.is_ok() {
                break;
            }
            // Whoever writes a file may be at it still.
            std::thread::sleep(PAUSE);
            made = page_now(self.maker, self.inputs, changes);
        }
        let page = made?;
        self.page = Some((changes, page.clone()));
        Ok(page)
    }
}
