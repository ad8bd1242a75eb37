//! Draws the calls of a script, a text in SVG (docs/RULES.md, "The picture").

use crate::arrows::{Arrow, Fate, Follower, Who};
use crate::book::Page;
use crate::deliver::{Event, Outcome};
use crate::frame;
use crate::layout::{y, Layout};
use crate::rows::Row;
use crate::script::{Call, Line};
use crate::stage::{Stage, Told};

/// Makes the calls and draws them.
pub fn picture<P: Page>(mut stage: Stage<P>, lines: &[Line]) -> String {
    let mut follower = Follower::default();
    let mut rows = Vec::new();
    for Line { number, content } in lines {
        let content = content.as_ref().map(|call| {
            let (told, _) = stage.make(call);
            follower.follow(rows.len(), call, told, &stage);
            (call, told)
        });
        let line = *number;
        rows.push(Row { line, content });
    }
    drawing(&rows, &follower.end())
}

fn drawing(rows: &[Row], arrows: &[Arrow]) -> String {
    let layout = Layout::of(rows);
    let mut text = frame(&layout);
    for (index, row) in rows.iter().enumerate() {
        text += &row_elements(&layout, index, row);
    }
    for who in &layout.lifelines {
        text += &lifeline(&layout, *who);
    }
    for (index, row) in rows.iter().enumerate() {
        text += &mark(&layout, index, row);
    }
    for arrow in arrows {
        text += &arrow_element(&layout, arrow);
    }
    text + "</svg>\n"
}

fn frame(layout: &Layout) -> String {
    [
        frame::opening(layout.width, layout.height).as_str(),
        frame::STYLE,
        frame::ground(layout.width, layout.height).as_str(),
        frame::LEGEND,
        frame::heading_of_told(layout.right).as_str(),
    ]
    .concat()
}

fn row_elements(layout: &Layout, index: usize, row: &Row) -> String {
    let (width, y) = (layout.width, y(index));
    let top = y - 9;
    let mut text = String::new();
    if let Some(tint) = tint(row) {
        text += &format!(
            "<rect class=\"{tint}\" x=\"0\" y=\"{top}\" width=\"{width}\" height=\"18\"/>\n"
        );
    }
    if row.opened().is_some() {
        text += &line_element("opening", (0, top), (width, top));
    }
    text += &line_element("row", (layout.left - 12, y), (layout.right - 12, y));
    text + &row_texts(layout, y + 4, row)
}

fn tint(row: &Row) -> Option<&'static str> {
    match row.content {
        Ok((_, Told::Refused(_))) => Some("refused"),
        Ok(_) => None,
        Err(_) => Some("unread"),
    }
}

fn row_texts(layout: &Layout, y: usize, row: &Row) -> String {
    let mut text = text_element("number", (44, y), &row.line.to_string());
    if row.content.is_ok() {
        text += &text_element("call", (54, y), &row.call_text());
    }
    text + &text_element("told", (layout.right, y), &row.told_text())
}

fn lifeline(layout: &Layout, who: Who) -> String {
    let (word, number) = match who {
        Who::Console(number) => ("console", number),
        Who::Hall(number) => ("hall", number),
    };
    let x = layout.x(who);
    let heading = format!("{word} {number}");
    line_element(word, (x, 94), (x, layout.height - 4))
        + &text_element("heading over", (x, 88), &heading)
}

/// Of a part that was done or fell, or of a clock that was set; else nothing.
fn mark(layout: &Layout, index: usize, row: &Row) -> String {
    match row.content {
        Ok((_, Told::Came(event))) => mark_of_part(layout, y(index), event),
        Ok((Call::Clock { hall, .. }, Told::Done)) => {
            let (x, y) = (layout.x(Who::Hall((*hall).into())), y(index) - 5);
            format!("<path class=\"clock\" d=\"M{x} {y}l5 5l-5 5l-5-5z\"/>\n")
        }
        _ => String::new(),
    }
}

fn mark_of_part(layout: &Layout, y: usize, event: Event) -> String {
    use Outcome::{Aborted, Done, DoneAtOnce, MetConflict, Removed};
    let class = match event.outcome {
        MetConflict | Aborted | Removed => "fallen",
        DoneAtOnce | Done if event.answer.is_well_done() => "done",
        DoneAtOnce | Done => "fault",
        _ => return String::new(),
    };
    let (x, y) = (layout.x(Who::Hall(event.hall)) - 4, y - 4);
    format!("<rect class=\"{class}\" x=\"{x}\" y=\"{y}\" width=\"8\" height=\"8\"/>\n")
}

fn arrow_element(layout: &Layout, arrow: &Arrow) -> String {
    let (kind, fate) = (arrow.message.kind_word(), arrow.fate.word());
    let way = way(layout, arrow);
    format!("<path class=\"{kind} {fate}\" d=\"{way}\"/>\n")
}

fn way(layout: &Layout, arrow: &Arrow) -> String {
    let (sender, receiver) = (arrow.message.sender(), arrow.message.receiver());
    let between = |step: usize| layout.x_between(sender, receiver, step);
    let (x, y_posted) = (layout.x(sender), y(arrow.row));
    match arrow.fate {
        Fate::Arrived(row) | Fate::Again(row) => {
            let (bend, end, y) = (between(36), layout.x(receiver), y(row));
            format!("M{x} {y_posted}Q{bend} {y} {end} {y}")
        }
        Fate::Lost(row) => format!("M{x} {y_posted}L{} {}", between(30), y(row)),
        Fate::Left => format!("M{x} {y_posted}L{} {}", between(9), y_posted + 9),
    }
}

/// A place in the picture, across and down.
type Point = (usize, usize);

fn line_element(class: &str, (x1, y1): Point, (x2, y2): Point) -> String {
    format!("<line class=\"{class}\" x1=\"{x1}\" y1=\"{y1}\" x2=\"{x2}\" y2=\"{y2}\"/>\n")
}

fn text_element(class: &str, (x, y): Point, text: &str) -> String {
    format!("<text class=\"{class}\" x=\"{x}\" y=\"{y}\">{text}</text>\n")
}
