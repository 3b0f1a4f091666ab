//! A picture of a lens with its paraxial rays.
use super::drawing::{extent, Layout, Point};
use lensbench::jobfile::Entry;
use lensbench::{shortest, Surface};

const WIDTH: f64 = 960.0;
const MARGIN: f64 = 24.0;
const TOP: f64 = 56.0;
const BOTTOM: f64 = 44.0;
/// the drawing is at most this high
const TALLEST: f64 = 640.0;

/// The lens with these surfaces, its rays in each slot, its name and a scale.
pub fn picture(entry: &Entry, surfaces: &[Surface], merit: f64) -> String {
    let layout = Layout::new(&entry.job.lens, surfaces);
    let mut lens = entry.job.lens.clone();
    lens.surfaces = surfaces.to_vec();
    let traced: Vec<_> = (0..lens.slots).filter_map(|slot| Some((slot, lens.trace(slot).ok().flatten()?))).collect();
    let curves: Vec<Vec<Point>> = (0..surfaces.len()).map(|i| layout.element(i).unwrap_or_else(|| layout.curve(i))).collect();
    let ends = traced.iter().flat_map(|(_, rays)| layout.rays(rays, 0.0)).flatten();
    let Some((least, most, far)) = extent(curves.iter().flatten().copied().chain(ends)) else {
        return nothing(&entry.name);
    };
    let start = least - 0.1 * (most - least).max(far);
    let page = Page::new(start, most, far);
    let mut body = page.axis();
    for (slot, rays) in &traced {
        for ray in layout.rays(rays, start) {
            body += &page.line(&ray, &format!("class=\"ray\" stroke=\"{}\"", colour(entry, *slot)));
        }
    }
    let glass: String = (0..surfaces.len()).map(|i| part(&page, &layout, i)).collect();
    let legend: String = traced.iter().enumerate().map(|(i, (slot, _))| legend(entry, *slot, i)).collect();
    page.framed(&format!("{}{glass}{body}{legend}{}", page.title(&entry.name, merit), page.scale()))
}

/// An element of glass, an image, or a surface in air.
fn part(page: &Page, layout: &Layout, i: usize) -> String {
    if let Some(outline) = layout.element(i) {
        return page.area(&outline, if layout.crossed(i) { "crossed" } else { "glass" });
    }
    let class = if layout.image(i) { "image" } else { "air" };
    if layout.in_air(i) {
        page.line(&layout.curve(i), &format!("class=\"{class}\""))
    } else {
        String::new()
    }
}

const RED: &str = "#c0392b";
const GREEN: &str = "#1e8449";
const BLUE: &str = "#2060b0";
const OTHERS: [&str; 4] = [RED, GREEN, BLUE, "#7d3c98"];

/// The colour of the light where every slot's name tells one and no two the same; else one after the other.
fn colour(entry: &Entry, slot: usize) -> &'static str {
    let told: Option<Vec<&str>> = entry.slots.iter().map(|name| light(name)).collect();
    let apart = |of: &Vec<&str>| of.iter().enumerate().all(|(i, one)| !of[..i].contains(one));
    told.filter(apart).and_then(|of| of.get(slot).copied()).unwrap_or(OTHERS[slot % 4])
}

/// By the names of spectral lines, of colours, or a wavelength in nm.
fn light(name: &str) -> Option<&'static str> {
    match name {
        "F" | "F'" | "g" | "h" | "blue" => Some(BLUE),
        "d" | "e" | "D" | "green" | "yellow" => Some(GREEN),
        "C" | "C'" | "r" | "red" | "HeNe" => Some(RED),
        other => {
            let nm: f64 = other.trim_end_matches("nm").parse().ok()?;
            Some(if nm < 500.0 {
                BLUE
            } else if nm < 600.0 {
                GREEN
            } else {
                RED
            })
        }
    }
}

fn legend(entry: &Entry, slot: usize, at: usize) -> String {
    let x = MARGIN + 90.0 * at as f64;
    let name = escaped(entry.slots.get(slot).map_or("", String::as_str));
    let stroke = colour(entry, slot);
    format!(
        "<line x1=\"{x}\" x2=\"{}\" y1=\"42\" y2=\"42\" stroke=\"{stroke}\" stroke-width=\"2\"/><text x=\"{}\" y=\"46\">{name}</text>\n",
        x + 18.0,
        x + 24.0
    )
}

/// From mm to the page.
struct Page {
    start: f64,
    far: f64,
    per_mm: f64,
    width: f64,
    height: f64,
}

impl Page {
    fn new(start: f64, end: f64, far: f64) -> Page {
        let across = (WIDTH - 2.0 * MARGIN) / (end - start);
        let per_mm = across.min(TALLEST / (2.0 * far));
        Page { start, far, per_mm, width: 2.0 * MARGIN + per_mm * (end - start), height: TOP + BOTTOM + per_mm * 2.0 * far }
    }

    fn x(&self, z: f64) -> f64 {
        MARGIN + (z - self.start) * self.per_mm
    }

    fn y(&self, y: f64) -> f64 {
        TOP + (self.far - y) * self.per_mm
    }

    fn points(&self, of: &[Point]) -> String {
        of.iter().map(|(z, y)| format!("{:.2},{:.2}", self.x(*z), self.y(*y))).collect::<Vec<_>>().join(" ")
    }

    fn line(&self, of: &[Point], how: &str) -> String {
        format!("<polyline points=\"{}\" {how}/>\n", self.points(of))
    }

    fn area(&self, of: &[Point], class: &str) -> String {
        format!("<polygon points=\"{}\" class=\"{class}\"/>\n", self.points(of))
    }

    fn axis(&self) -> String {
        let y = self.y(0.0);
        format!("<line x1=\"{MARGIN}\" x2=\"{:.2}\" y1=\"{y:.2}\" y2=\"{y:.2}\" class=\"axis\"/>\n", self.page_width() - MARGIN)
    }

    fn title(&self, name: &str, merit: f64) -> String {
        format!(
            "<text x=\"{MARGIN}\" y=\"26\" class=\"name\">{}</text><text x=\"{:.2}\" y=\"46\" text-anchor=\"end\">merit {}</text>\n",
            escaped(name),
            self.page_width() - MARGIN,
            shortest(merit)
        )
    }

    /// A bar of 1, 2 or 5 times a power of ten mm, about a sixth of the drawing.
    fn scale(&self) -> String {
        let about = (self.width - 2.0 * MARGIN) / self.per_mm / 6.0;
        let ten = 10f64.powf(about.log10().floor());
        let length = [5.0, 2.0, 1.0].iter().map(|k| k * ten).find(|l| *l <= about).unwrap_or(ten);
        let (x, y) = (MARGIN, self.height - 18.0);
        let end = x + length * self.per_mm;
        format!(
            "<path d=\"M{x} {:.2}V{y:.2}H{end:.2}V{:.2}\" class=\"scale\"/><text x=\"{:.2}\" y=\"{y:.2}\">{} mm; rays are paraxial</text>\n",
            y - 6.0,
            y - 6.0,
            end + 8.0,
            shortest(length)
        )
    }

    /// wide enough for the words, however narrow the lens is
    fn page_width(&self) -> f64 {
        self.width.max(420.0)
    }

    fn framed(&self, body: &str) -> String {
        format!("{}\n{STYLE}{body}</svg>\n", opening(self.page_width(), self.height))
    }
}

const STYLE: &str = "<style>
text { font: 13px sans-serif; fill: #222 } .name { font-size: 17px }
polyline, .scale { fill: none } polyline.image { stroke: #222; stroke-width: 2.5 } polyline.air { stroke: #888; stroke-dasharray: 3 3 }
.glass { fill: #cfe4f7; fill-opacity: 0.75; stroke: #26527a; stroke-width: 1.2; stroke-linejoin: round }
.crossed { fill: #f7cfcf; stroke: #b00020; stroke-width: 1.2 }
.ray { stroke-width: 0.9 } .axis { stroke: #999; stroke-dasharray: 10 3 2 3 } .scale { stroke: #222 }
</style>\n<rect width=\"100%\" height=\"100%\" fill=\"#fff\"/>\n";

fn opening(width: f64, height: f64) -> String {
    let (w, h) = (width.ceil(), height.ceil());
    format!("<svg xmlns=\"http://www.w3.org/2000/svg\" width=\"{w}\" height=\"{h}\" viewBox=\"0 0 {w} {h}\">")
}

fn nothing(name: &str) -> String {
    format!("{}\n<text x=\"10\" y=\"30\">{}: nothing that could be drawn</text></svg>\n", opening(480.0, 60.0), escaped(name))
}

fn escaped(text: &str) -> String {
    let shown: String = text.chars().filter(|c| !c.is_control()).collect();
    shown.replace('&', "&amp;").replace('<', "&lt;").replace('>', "&gt;").replace('"', "&quot;")
}
