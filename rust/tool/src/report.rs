//! The page for the auditor: one HTML file that needs nothing beside it, for paper and for a screen.
//!
//! Nothing is decided here. The yes or no and the right parts come from the proved call, the faults from
//! [`crate::audit`]; the page puts them in order for a reader, and says which is which.
mod annex;
mod grid;
mod html;
mod pairs;
mod parts;
mod picture;
mod questions;
#[cfg(test)]
mod tests;
mod words;

use crate::audit::{Audited, Fault};
use crate::equation::{equation, inputs};
use annex::Annex;
use html::{escaped, sign};
use pairs::Pairs;
use words::{counted, in_short, numbers};

/// What the page says of the run that made it.
pub struct About {
    /// The file of the approved equation, as it was typed.
    pub approved_name: String,
    /// The command that audits these files again, quoted for a shell; it writes no page.
    pub command: String,
    /// The tool as it was called, quoted for a shell.
    pub tool_name: String,
    /// The command that splits the approved equation from where it came, quoted for a shell.
    pub split: String,
    /// When: `2026-11-16 02:10 UTC`.
    pub made: String,
    /// The tool's version.
    pub tool: &'static str,
    /// The library's version.
    pub library: &'static str,
    /// The kit that proved the library.
    pub kit: &'static str,
    /// The fingerprint of the sources.
    pub sources: &'static str,
    /// The machine, and what made the archive.
    pub machine: &'static str,
}

/// The page, whole.
pub fn page(audited: &Audited, about: &About) -> String {
    let mut annex = Annex::default();
    let pairs = Pairs::of(audited);
    let body = [
        verdict(&pairs, about),
        approved(audited, &mut annex),
        questions::section(audited, &mut annex),
        parts::section(&pairs, &mut annex),
        picture::section(&pairs),
        proved(about),
        again(audited, about),
        versions(about),
        SIGNATURES.to_string(),
        annex.section(),
    ];
    format!(
        "<!doctype html>\n<html lang=\"en\">\n<head>\n<meta charset=\"utf-8\">\n\
         <meta name=\"viewport\" content=\"width=device-width, initial-scale=1\">\n\
         <title>{}: {} - audit of {}</title>\n\
         <style>\n{}{}</style>\n</head>\n<body>\n<main>\n{}</main>\n</body>\n</html>\n",
        word(audited).to_lowercase(),
        sentence(audited),
        escaped(&about.approved_name),
        include_str!("report/style.css"),
        foot(audited, about),
        body.concat()
    )
}

fn word(audited: &Audited) -> &'static str {
    if audited.yes {
        "Yes"
    } else {
        "No"
    }
}

fn sentence(audited: &Audited) -> &'static str {
    if audited.yes {
        "the given parts are the parts of the approved equation"
    } else {
        "the given parts are not the parts of the approved equation"
    }
}

/// What stands at the foot of each printed page, so that a single sheet can be told.
fn foot(audited: &Audited, about: &About) -> String {
    let plain = |sign: &char| sign.is_ascii_alphanumeric() || " :-".contains(*sign);
    let made: String = about.made.chars().filter(plain).collect();
    format!(
        "@page {{ @bottom-left {{ content: \"Apfelruder audit of {made}: {}\" }} }}\n",
        word(audited).to_lowercase()
    )
}

fn verdict(pairs: &Pairs, about: &About) -> String {
    let audited = pairs.audited;
    format!(
        "<header>\n<p class=\"kicker\">Apfelruder <span>Audit of loaded parts</span></p>\n\
         <div class=\"verdict {}\">\n{}\n<div>\n<h1><strong>{}:</strong> {}</h1>\n{}\
         <p class=\"theorem\">The answer of the proved call <code>apfelruder_audit</code>. Theorem \
         <code>audit_says_yes_exactly_for_the_parts</code>: it says yes exactly if the given parts, in their order, are \
         the parts of the approved equation.</p>\n</div>\n</div>\n\
         <dl>\n<dt>Approved</dt><dd class=\"file\">{}</dd>\n<dt>Given</dt><dd>{}</dd>\n<dt>Made</dt><dd>{}</dd>\n\
         </dl>\n</header>\n",
        word(audited).to_lowercase(),
        sign(audited.yes),
        word(audited),
        sentence(audited),
        remark(pairs),
        escaped(&about.approved_name),
        given(audited),
        escaped(&about.made)
    )
}

fn given(audited: &Audited) -> String {
    match audited.given.len() {
        0 => "no parts".to_string(),
        count => format!("{}, as loaded; the file of each is named with it below", counted(count, "part")),
    }
}

/// What is said of a no before the two questions.
fn remark(pairs: &Pairs) -> String {
    let said = match questions::faults(pairs.audited) {
        [] if pairs.audited.yes => return String::new(),
        [] => "The tool has found no words for what is wrong. The answer stands.".to_string(),
        [order @ Fault::Order] => format!("All parts are there, but {}.", order.lines().concat()),
        _ => pairs.differing(),
    };
    format!("<p class=\"remark\">{said}</p>\n")
}

fn approved(audited: &Audited, annex: &mut Annex) -> String {
    let all = inputs(&audited.approved);
    let over = match numbers(all).len() {
        0 => "no input".to_string(),
        count => format!("{}: {}", counted(count, "input"), in_short(all)),
    };
    format!(
        "<section>\n<h2>The approved equation</h2>\n<p class=\"equation large\">{}</p>\n\
         <p class=\"facts\">{} · {over}</p>\n</section>\n",
        annex.equation(&audited.approved),
        counted(audited.approved.len(), "term")
    )
}

/// Where the archive was compiled by another way than rt's.
const NATIVE: &str =
    "<p>The library was compiled for this machine by <code>scripts/native-archive</code>: what that asks to be \
    trusted, beside the proofs, is told in <code>docs/READING.md</code>.</p>\n";

const PROVED: &str = "<section class=\"kept\">\n<h2>What is proved, and what is not</h2>\n\
    <p><b>Proved</b>, for all equations and parts: that the yes or no at the top is right, and that the parts shown as \
    they should be are the parts of the approved equation (theorems <code>audit_leaves_what_split_leaves</code> and \
    <code>accepted_split_holds_the_parts</code>). Both come from the call <code>apfelruder_audit</code> of the library. \
    The theorems named on this page stand in <code>crates/demands/proofs/Demands.antt</code>.</p>\n\
    <p><b>Not proved</b>, but tested: that the tool <code>apfelruder</code> hands the library what the files hold; its \
    words on a no, that is which terms, inputs and parts it names; this page itself. What the proofs rest on, such as \
    the kit and the compiler, is told in <code>docs/READING.md</code>.</p>\n\
    <p><b>Not judged</b>: whether a board holds what the files held.</p>\n";

fn proved(about: &About) -> String {
    let native = if about.machine.contains("native-archive") { NATIVE } else { "" };
    format!("{PROVED}{native}</section>\n")
}

fn again(audited: &Audited, about: &About) -> String {
    let parts = counted(audited.parts.len(), "part");
    format!(
        "<section class=\"kept\">\n<h2>How to check again</h2>\n<ol>\n\
         <li>Audit again, where the same files are. The status is {} for this answer.\n<pre>{}</pre></li>\n\
         <li>Split the approved equation. The right parts are printed: {parts}.\n<pre>{}</pre></li>\n\
         <li>Prove the library again and run all its tests, in its repository. The last line has \
         <code>0 failed</code>.\n<pre>bash .ci/run</pre></li>\n\
         <li>Read in <code>docs/READING.md</code>, a page for auditors, what is proved and what is assumed.</li>\n\
         </ol>\n</section>\n",
        u8::from(!audited.yes),
        escaped(&about.command),
        escaped(&split_command(audited, about))
    )
}

/// A command that splits the approved equation: as it stands on this page if that is short, else from where it came.
fn split_command(audited: &Audited, about: &About) -> String {
    const SHORT: usize = 200;
    let text = equation(&audited.approved);
    if text.len() <= SHORT {
        return format!("echo '{text}' | {} split", about.tool_name);
    }
    about.split.clone()
}

fn versions(about: &About) -> String {
    let rows = [
        ("Tool", about.tool),
        ("Library", about.library),
        ("Kit", about.kit),
        ("Sources", about.sources),
        ("Machine", about.machine),
    ];
    let rows = rows.map(|(what, which)| format!("<dt>{what}</dt><dd class=\"file\">{}</dd>\n", escaped(which)));
    format!(
        "<section class=\"kept\">\n<h2>Versions</h2>\n<p class=\"lead\">As <code>apfelruder --version</code> prints \
         them.</p>\n<dl>\n{}</dl>\n</section>\n",
        rows.concat()
    )
}

/// For paper.
const SIGNATURES: &str = "<div class=\"signatures\">\n<p>Engineer: name, date, signature</p>\n\
    <p>Auditor: name, date, signature</p>\n</div>\n";
