//! Text in cells: clusters, their widths, and lines.

use unicode_segmentation::UnicodeSegmentation;
use unicode_width::UnicodeWidthStr;

/// A line of a text, by its bytes; spaces at its end stand between `trimmed` and `end`.
#[derive(Clone, Copy, Debug)]
pub struct Line {
    pub start: usize,
    pub trimmed: usize,
    pub cells: u64,
}

struct Cluster {
    start: usize,
    end: usize,
    cells: u64,
    space: bool,
}

/// The lines of a text that has at most so many cells in each.
pub fn wrap(text: &str, limit: Option<u64>) -> Vec<Line> {
    let mut lines = Vec::new();
    let mut paragraph = Vec::new();
    let mut start = 0;
    for (at, cluster) in text.grapheme_indices(true) {
        if cluster == "\n" || cluster == "\r\n" {
            wrap_paragraph(&paragraph, start, limit, &mut lines);
            paragraph.clear();
            start = at + cluster.len();
        } else {
            let cells = cluster.width().min(2) as u64;
            paragraph.push(Cluster { start: at, end: at + cluster.len(), cells, space: cluster == " " });
        }
    }
    wrap_paragraph(&paragraph, start, limit, &mut lines);
    lines
}

fn wrap_paragraph(clusters: &[Cluster], start: usize, limit: Option<u64>, lines: &mut Vec<Line>) {
    if clusters.is_empty() {
        lines.push(Line { start, trimmed: start, cells: 0 });
        return;
    }
    let mut from = 0;
    while from < clusters.len() {
        let end = line_end(clusters, from, limit.unwrap_or(u64::MAX));
        let seen = &clusters[from..end];
        let kept = seen.iter().rposition(|c| !c.space).map_or(0, |k| k + 1);
        let start = clusters[from].start;
        lines.push(Line {
            start,
            trimmed: seen[..kept].last().map_or(start, |c| c.end),
            cells: seen[..kept].iter().map(|c| c.cells).sum(),
        });
        from = end;
    }
}

fn line_end(clusters: &[Cluster], from: usize, limit: u64) -> usize {
    let mut cells = 0;
    let mut after_space = None;
    for (i, c) in clusters.iter().enumerate().skip(from) {
        cells += c.cells;
        if c.space {
            after_space = Some(i + 1);
        } else if cells > limit {
            let end = i.max(from + 1);
            return after_space.unwrap_or(end);
        }
    }
    clusters.len()
}

pub fn widest(lines: &[Line]) -> u64 {
    lines.iter().map(|l| l.cells).max().unwrap_or(0)
}
