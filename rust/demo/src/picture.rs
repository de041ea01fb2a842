//! The story as an SVG picture.

use crate::cabling::{all_ports, Port, Switch};
use crate::network::{End, State};
use crate::outcome::{outcome, said};
use crate::story::Story;
use crate::timeline::{character, round_step, seconds, wrap, LEGEND};

const WIDTH: usize = 1200;
const LEFT: usize = 80;
const PLOT: usize = WIDTH - LEFT - 30;
const ROW: usize = 24;
const BAR: usize = 18;
/// The stripe in the bar of a port whose link churns: for this end at its top, for the far end at its bottom.
const STRIPE: usize = 4;
/// Where the columns of the legend begin, and the height of its rows.
const LEGEND_AT: [usize; 4] = [20, 280, 600, 890];
const LEGEND_ROW: usize = 26;
/// Where the numbers of the events begin below the first rows of the legend, and the height of a line of them.
const LANES: usize = 122;
const LANE: usize = 24;
const CHART: usize = 48;
const CHART_GAP: usize = 18;
const TEXT_LINE: usize = 17;
/// Characters of a line of the event list, for wide fonts too.
const TEXT_WIDTH: usize = 80;
const SUBTITLE: &str =
    "Ports as bars. A tick is a tenth of a second. Width: the number of ports on which the trunk carries traffic at that end.";
const MIDDLE: &str = "text-anchor='middle'";
const END: &str = "text-anchor='end'";

/// The picture.
pub fn svg(story: &Story) -> String {
    let mut canvas = Canvas { story, lanes_at: LANES, shapes: String::new() };
    canvas.legend();
    let lanes = canvas.lanes();
    let top = canvas.lanes_at + LANE * lanes.iter().max().map_or(0, |most| most + 1);
    let charts = canvas.bars(top) + 14;
    let axis = canvas.widths(charts);
    canvas.axis(axis);
    canvas.markers(&lanes, axis);
    let height = canvas.list(axis + 52);
    format!(
        "<svg xmlns='http://www.w3.org/2000/svg' width='{WIDTH}' height='{height}' viewBox='0 0 {WIDTH} {height}' \
         font-family='Helvetica, Arial, sans-serif' font-size='13'>\n<rect width='100%' height='100%' fill='white'/>\n\
         {}</svg>\n",
        canvas.shapes
    )
}

/// Colours that colour-blind readers can tell apart (Okabe and Ito), and that of a character on it.
fn colours(state: State) -> (&'static str, &'static str) {
    match state {
        State::Distributing => ("#0072B2", "white"),
        State::Lost => ("#D55E00", "white"),
        State::Collecting => ("#56B4E9", "black"),
        State::Attached => ("#009E73", "white"),
        State::Waiting => ("#F0E442", "black"),
        State::Unheard => ("#CC79A7", "black"),
        State::LacpOff => ("#555555", "white"),
        State::Down => ("#E4E4E4", "black"),
    }
}

struct Canvas<'a> {
    story: &'a Story,
    /// Where the numbers of the events begin.
    lanes_at: usize,
    shapes: String,
}

impl Canvas<'_> {
    fn draw(&mut self, shape: &str) {
        self.shapes.push_str(shape);
        self.shapes.push('\n');
    }

    fn write(&mut self, x: usize, y: usize, attributes: &str, text: &str) {
        let text = text.replace('&', "&amp;").replace('<', "&lt;").replace('>', "&gt;");
        self.draw(&format!("<text x='{x}' y='{y}' {attributes}>{text}</text>"));
    }

    fn line(&mut self, (x1, y1): (usize, usize), (x2, y2): (usize, usize), stroke: &str) {
        self.draw(&format!("<line x1='{x1}' y1='{y1}' x2='{x2}' y2='{y2}' stroke={stroke}/>"));
    }

    /// A piece of a bar, with its character if there is room.
    fn piece(&mut self, x: usize, y: usize, width: usize, state: State) {
        let (fill, ink) = colours(state);
        self.draw(&format!("<rect x='{x}' y='{y}' width='{width}' height='{BAR}' fill='{fill}'/>"));
        if width >= 16 {
            self.write(x + width / 2, y + 13, &format!("{MIDDLE} fill='{ink}'"), &character(state).to_string());
        }
    }

    /// The stripe over a piece of a bar whose link churns at that end.
    fn stripe(&mut self, x: usize, y: usize, width: usize, end: End) {
        let y = match end {
            End::This => y,
            End::Far => y + BAR - STRIPE,
        };
        self.draw(&format!(
            "<rect x='{x}' y='{y}' width='{width}' height='{STRIPE}' fill='black' stroke='white' stroke-width='0.5'/>"
        ));
    }

    fn number(&mut self, x: usize, y: usize, number: usize) {
        self.draw(&format!("<circle cx='{x}' cy='{y}' r='10' fill='black'/>"));
        self.write(x, y + 4, &format!("{MIDDLE} fill='white' font-size='12' font-weight='bold'"), &number.to_string());
    }

    fn x(&self, tick: usize) -> usize {
        LEFT + PLOT * tick / self.story.looks.len()
    }

    fn legend(&mut self) {
        self.write(20, 34, "font-size='20' font-weight='bold'", "Two switches and their trunk");
        self.write(WIDTH - 30, 34, &format!("{END} fill='#444444'"), SUBTITLE);
        for (at, (state, _, words)) in LEGEND.into_iter().enumerate() {
            let (x, y) = (LEGEND_AT[at % 4], 52 + at / 4 * LEGEND_ROW);
            self.piece(x, y, 20, state);
            self.write(x + 28, y + 14, "", words);
        }
        if !self.story.churning.is_empty() {
            self.churn_legend(52 + LEGEND.len().div_ceil(4) * LEGEND_ROW);
            self.lanes_at += LEGEND_ROW;
        }
    }

    /// A row of the legend that only a story with churn has.
    fn churn_legend(&mut self, y: usize) {
        let words =
            ["this end", "the far end"].map(|end| format!("churns: {end} is out of sync for a minute and more"));
        for ((x, end), words) in [LEGEND_AT[0], LEGEND_AT[2]].into_iter().zip(End::BOTH).zip(words) {
            self.piece(x, y, 20, State::Attached);
            self.stripe(x, y, 20, end);
            self.write(x + 28, y + 14, "", &words);
        }
    }

    /// The lane of each event's number, so that no two overlap.
    fn lanes(&self) -> Vec<usize> {
        let mut ends: Vec<usize> = Vec::new();
        let mut lanes = Vec::new();
        for x in self.story.events.iter().map(|event| self.x(event.tick)) {
            let lane = ends.iter().position(|end| *end <= x).unwrap_or(ends.len());
            ends.resize(ends.len().max(lane + 1), 0);
            ends[lane] = x + LANE;
            lanes.push(lane);
        }
        lanes
    }

    fn markers(&mut self, lanes: &[usize], bottom: usize) {
        for (at, lane) in lanes.iter().enumerate() {
            let (x, y) = (self.x(self.story.events[at].tick), self.lanes_at + LANE * lane);
            self.line((x, y), (x, bottom), "'black' stroke-dasharray='2 3'");
        }
        for (at, lane) in lanes.iter().enumerate() {
            self.number(self.x(self.story.events[at].tick), self.lanes_at + LANE * lane, at + 1);
        }
    }

    /// A bar for each port; gives the place below.
    fn bars(&mut self, top: usize) -> usize {
        let mut y = top;
        for port in all_ports(self.story.ports) {
            y += if port == Port::b(1) { 10 } else { 0 };
            self.write(LEFT - 10, y + 14, END, &port.to_string());
            self.bar(y, port);
            y += ROW;
        }
        y
    }

    fn bar(&mut self, y: usize, port: Port) {
        let states: Vec<State> = self.story.looks.iter().map(|look| look.port(port).state).collect();
        let mut tick = 0;
        for run in states.chunk_by(|one, next| one == next) {
            let x = self.x(tick);
            tick += run.len();
            self.piece(x, y, self.x(tick) - x, run[0]);
        }
        for churning in self.story.churning.iter().filter(|churning| churning.port == port) {
            let x = self.x(churning.ticks.start);
            self.stripe(x, y, self.x(churning.ticks.end) - x, churning.end);
        }
    }

    /// The trunk's width at each end as a step line; gives the place of the axis.
    fn widths(&mut self, top: usize) -> usize {
        let widths =
            Switch::BOTH.map(|switch| self.story.looks.iter().map(|look| look.width(switch)).collect::<Vec<_>>());
        let most = widths.iter().flatten().copied().max().unwrap_or(0).max(1);
        let mut bottom = top;
        for (switch, widths) in Switch::BOTH.into_iter().zip(widths) {
            let y = |width: usize| bottom + CHART - CHART * width / most;
            self.write(20, bottom + CHART / 2 + 4, "", &format!("width {switch:?}"));
            for width in 0..=most {
                self.line((LEFT, y(width)), (LEFT + PLOT, y(width)), "'#DDDDDD'");
            }
            for width in [0, most] {
                self.write(LEFT - 6, y(width) + 4, &format!("{END} font-size='11'"), &width.to_string());
            }
            self.steps(&widths, y);
            bottom += CHART + CHART_GAP;
        }
        bottom
    }

    fn steps(&mut self, widths: &[usize], y: impl Fn(usize) -> usize) {
        let mut path = format!("M{LEFT} {}", y(widths[0]));
        let mut tick = 0;
        for run in widths.chunk_by(|one, next| one == next) {
            tick += run.len();
            path += &format!(" V{} H{}", y(run[0]), self.x(tick));
        }
        self.draw(&format!("<path d='{path}' fill='none' stroke='#0072B2' stroke-width='2.5'/>"));
    }

    fn axis(&mut self, y: usize) {
        let ticks = self.story.looks.len();
        self.line((LEFT, y), (LEFT + PLOT, y), "'black'");
        for tick in (0..=ticks).step_by(round_step(|step| ticks / step <= 16)) {
            let x = self.x(tick);
            self.line((x, y), (x, y + 5), "'black'");
            self.write(x, y + 19, MIDDLE, &format!("{} s", seconds(tick)));
        }
    }

    /// The events in two columns; gives the height of the picture.
    fn list(&mut self, top: usize) -> usize {
        let told: Vec<_> = (0..self.story.events.len()).map(|at| self.told(at)).collect();
        let total: usize = told.iter().map(|lines| lines.len() + 1).sum();
        let (mut x, mut line, mut most) = (30, 0, 0);
        for (number, lines) in (1..).zip(told) {
            if line * 2 >= total {
                (x, line) = (WIDTH / 2 + 20, 0);
            }
            self.number(x, top + line * TEXT_LINE - 4, number);
            for (look, text) in lines {
                self.write(x + 18, top + line * TEXT_LINE, look, &text);
                line += 1;
            }
            most = most.max(line);
            line += 1;
        }
        top + most * TEXT_LINE + 4
    }

    /// The lines of an event, with how they look.
    fn told(&self, at: usize) -> Vec<(&'static str, String)> {
        let event = &self.story.events[at];
        let words = format!("{} s: {}", seconds(event.tick), event.words());
        let bold = wrap(&words, TEXT_WIDTH - 8).into_iter().map(|line| ("font-weight='bold'", line));
        let told = [outcome(self.story, at)].into_iter().chain(said(self.story, at));
        bold.chain(told.flat_map(|told| wrap(&told, TEXT_WIDTH)).map(|line| ("", line))).collect()
    }
}
