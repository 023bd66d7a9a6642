//! Serves one page over HTTP, to this machine alone.

use crate::Failure;
use std::io::{self, ErrorKind, Read, Write};
use std::net::{SocketAddr, TcpListener, TcpStream};
use std::sync::atomic::{AtomicBool, Ordering};
use std::sync::{Arc, Mutex};
use std::thread;
use std::time::Duration;

/// How long a browser may take over its question, and how long it is.
const PATIENCE: Duration = Duration::from_secs(2);
const QUESTION_MOST: usize = 8192;
const IDLE: Duration = Duration::from_millis(50);

/// The page as it is served, until this is dropped.
pub struct Page {
    address: SocketAddr,
    text: Arc<Mutex<String>>,
    is_over: Arc<AtomicBool>,
    server: Option<thread::JoinHandle<()>>,
}

impl Page {
    pub fn serve(at: SocketAddr) -> Result<Page, Failure> {
        let unusable = |e: io::Error| match e.kind() {
            ErrorKind::AddrInUse => Failure(format!("cannot serve the view at {}: the port is in use", at)),
            _ => Failure(format!("cannot serve the view at {}: {}", at, e)),
        };
        let listener = TcpListener::bind(at).map_err(unusable)?;
        listener.set_nonblocking(true).map_err(unusable)?;
        let address = listener.local_addr().map_err(unusable)?;
        let (text, is_over) = (Arc::new(Mutex::new(String::new())), Arc::new(AtomicBool::new(false)));
        let (served, over) = (text.clone(), is_over.clone());
        let server = thread::spawn(move || {
            while !over.load(Ordering::Relaxed) {
                match listener.accept() {
                    // Whoever does not listen to the answer has none.
                    Ok((stream, _)) => drop(answer(stream, &served)),
                    Err(_) => thread::sleep(IDLE),
                }
            }
        });
        Ok(Page { address, text, is_over, server: Some(server) })
    }

    pub fn address(&self) -> SocketAddr {
        self.address
    }

    pub fn show(&self, text: String) {
        if let Ok(mut shown) = self.text.lock() {
            *shown = text;
        }
    }
}

impl Drop for Page {
    fn drop(&mut self) {
        self.is_over.store(true, Ordering::Relaxed);
        if let Some(server) = self.server.take() {
            let _ = server.join();
        }
    }
}

fn answer(mut stream: TcpStream, text: &Mutex<String>) -> io::Result<()> {
    stream.set_nonblocking(false)?;
    stream.set_read_timeout(Some(PATIENCE))?;
    stream.set_write_timeout(Some(PATIENCE))?;
    let mut question = Vec::new();
    let mut buffer = [0; 1024];
    while !question.windows(4).any(|end| end == b"\r\n\r\n") && question.len() < QUESTION_MOST {
        match stream.read(&mut buffer)? {
            0 => break,
            length => question.extend_from_slice(buffer.get(..length).unwrap_or_default()),
        }
    }
    let page = text.lock().map(|text| text.clone()).unwrap_or_default();
    let (status, body) = match question.starts_with(b"GET / ") {
        true => ("200 OK", page.as_str()),
        false => ("404 Not Found", "There is one page, /.\n"),
    };
    let kind = if body.starts_with('<') { "text/html" } else { "text/plain" };
    write!(
        stream,
        "HTTP/1.1 {}\r\nContent-Type: {}; charset=utf-8\r\nContent-Length: {}\r\nCache-Control: no-store\r\nConnection: close\r\n\r\n{}",
        status,
        kind,
        body.len(),
        body
    )
}

#[cfg(test)]
mod tests {
    use super::*;

    fn asked(at: SocketAddr, question: &str) -> String {
        let mut stream = TcpStream::connect(at).unwrap();
        stream.write_all(question.as_bytes()).unwrap();
        let mut answer = String::new();
        stream.read_to_string(&mut answer).unwrap();
        answer
    }

    #[test]
    fn the_page_is_served_and_nothing_else() {
        let page = Page::serve(SocketAddr::from(([127, 0, 0, 1], 0))).unwrap();
        page.show("<p>one".to_string());
        let answer = asked(page.address(), "GET / HTTP/1.1\r\nHost: x\r\n\r\n");
        assert!(answer.starts_with("HTTP/1.1 200 OK\r\nContent-Type: text/html") && answer.ends_with("\r\n\r\n<p>one"), "{}", answer);
        page.show("<p>two".to_string());
        assert!(asked(page.address(), "GET / HTTP/1.1\r\n\r\n").ends_with("<p>two"));
        assert!(asked(page.address(), "GET /etc/passwd HTTP/1.1\r\n\r\n").starts_with("HTTP/1.1 404 "));
        assert!(asked(page.address(), "POST / HTTP/1.1\r\n\r\n").starts_with("HTTP/1.1 404 "));
        let again = Page::serve(page.address()).map(|_| ()).unwrap_err();
        assert_eq!(again.0, format!("cannot serve the view at {}: the port is in use", page.address()));
    }
}
