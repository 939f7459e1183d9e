//! Boxes, lines and areas in a picture, and how they lie to each other.

use super::{Pixel, SIZE};

/// A turned rectangle.
#[derive(Clone, Copy, Debug, PartialEq)]
pub struct Area {
    pub middle: Pixel,
    pub width: f64,
    pub height: f64,
    /// In degrees, clockwise.
    pub turn: f64,
}

impl Area {
    /// A square around a place.
    pub fn around(middle: Pixel, side: f64) -> Area {
        Area { middle, width: side, height: side, turn: 0.0 }
    }

    fn axes(&self) -> [Pixel; 2] {
        let (sin, cos) = self.turn.to_radians().sin_cos();
        [(cos, sin), (-sin, cos)]
    }

    /// Half of its extent along a direction.
    fn reach(&self, (right, down): Pixel) -> f64 {
        let [along, across] = self.axes();
        let part = |axis: Pixel, size: f64| (axis.0 * right + axis.1 * down).abs() * size / 2.0;
        part(along, self.width) + part(across, self.height)
    }

    /// Half of its extent to the right and down.
    fn extent(&self) -> Pixel {
        (self.reach((1.0, 0.0)), self.reach((0.0, 1.0)))
    }

    /// Whether two have a part in common: they do unless there is a direction in which they lie apart.
    pub fn meets(&self, other: &Area) -> bool {
        let between = (other.middle.0 - self.middle.0, other.middle.1 - self.middle.1);
        let apart = |axis: &Pixel| {
            let distance = (between.0 * axis.0 + between.1 * axis.1).abs();
            distance >= self.reach(*axis) + other.reach(*axis)
        };
        !self.axes().iter().chain(&other.axes()).any(apart)
    }

    /// Whether it is inside the picture.
    pub fn inside(&self) -> bool {
        let (x, y) = self.middle;
        let (across, along) = self.extent();
        x >= across && y >= along && x + across <= SIZE && y + along <= SIZE
    }
}

/// The cells of a picture in which taken places are looked up: so many in a row.
const CELLS: usize = 32;

/// The places of a picture that are taken.
pub struct Taken {
    cells: Vec<Vec<Area>>,
}

impl Taken {
    pub fn new() -> Taken {
        Taken { cells: vec![Vec::new(); CELLS * CELLS] }
    }

    /// The numbers of the cells that an area touches.
    fn touched(area: &Area) -> impl Iterator<Item = usize> {
        let cell =
            |pixel: f64| (pixel * CELLS as f64 / SIZE).clamp(0.0, CELLS as f64 - 1.0) as usize;
        let ((x, y), (across, along)) = (area.middle, area.extent());
        let columns = cell(x - across)..=cell(x + across);
        let rows = cell(y - along)..=cell(y + along);
        rows.flat_map(move |row| columns.clone().map(move |column| row * CELLS + column))
    }

    pub fn add(&mut self, area: Area) {
        for cell in Taken::touched(&area) {
            if !self.cells[cell].contains(&area) {
                self.cells[cell].push(area);
            }
        }
    }

    /// Whether an area is in the picture, and nothing is there.
    pub fn leaves(&self, area: &Area) -> bool {
        area.inside()
            && !Taken::touched(area).any(|cell| self.cells[cell].iter().any(|one| one.meets(area)))
    }
}

pub fn in_picture((x, y): Pixel) -> bool {
    (0.0..=SIZE).contains(&x) && (0.0..=SIZE).contains(&y)
}

pub fn distance(one: Pixel, other: Pixel) -> f64 {
    (one.0 - other.0).hypot(one.1 - other.1)
}

/// The part of a step from one place to another that is in the picture.
fn clipped(from: Pixel, to: Pixel) -> Option<(Pixel, Pixel)> {
    let (right, down) = (to.0 - from.0, to.1 - from.1);
    let (mut start, mut end) = (0.0f64, 1.0f64);
    let edges = [(-right, from.0), (right, SIZE - from.0), (-down, from.1), (down, SIZE - from.1)];
    for (towards, room) in edges {
        if towards == 0.0 && room < 0.0 {
            return None;
        }
        if towards < 0.0 {
            start = start.max(room / towards);
        } else if towards > 0.0 {
            end = end.min(room / towards);
        }
    }
    let at = |part: f64| (from.0 + right * part, from.1 + down * part);
    (start <= end).then(|| (at(start), at(end)))
}

/// A line's steps in the picture.
pub fn visible(nodes: &[Pixel]) -> Vec<(Pixel, Pixel)> {
    nodes.windows(2).filter_map(|pair| clipped(pair[0], pair[1])).collect()
}

/// How long some steps are together.
pub fn length(steps: &[(Pixel, Pixel)]) -> f64 {
    steps.iter().map(|&(from, to)| distance(from, to)).sum()
}

/// The place at a part of the length of some steps, and the direction there in degrees.
pub fn along(steps: &[(Pixel, Pixel)], part: f64) -> Option<(Pixel, f64)> {
    let mut left = length(steps) * part;
    for &(from, to) in steps {
        let size = distance(from, to);
        if left <= size && size > 0.0 {
            let (right, down) = (to.0 - from.0, to.1 - from.1);
            let at = (from.0 + right * left / size, from.1 + down * left / size);
            return Some((at, down.atan2(right).to_degrees()));
        }
        left -= size;
    }
    steps.last().map(|&(_, to)| (to, 0.0))
}

/// The part of a ring that is in the picture: cut at one edge after the other.
pub fn cut_ring(ring: &[Pixel]) -> Vec<Pixel> {
    let edges: [fn(Pixel) -> f64; 4] = [|at| at.0, |at| SIZE - at.0, |at| at.1, |at| SIZE - at.1];
    edges.iter().fold(ring.to_vec(), |ring, inside| {
        let mut cut = Vec::new();
        for (k, &to) in ring.iter().enumerate() {
            let from = ring[(k + ring.len() - 1) % ring.len()];
            let (before, after) = (inside(from), inside(to));
            if (before < 0.0) != (after < 0.0) {
                let part = before / (before - after);
                cut.push((from.0 + (to.0 - from.0) * part, from.1 + (to.1 - from.1) * part));
            }
            if after >= 0.0 {
                cut.push(to);
            }
        }
        cut
    })
}

/// The middle of a ring by its area; of one without area, the mean of its corners.
pub fn middle(ring: &[Pixel]) -> Option<Pixel> {
    let first = *ring.first()?;
    let (mut area, mut right, mut down) = (0.0, 0.0, 0.0);
    for (k, to) in ring.iter().enumerate() {
        let from = ring[(k + ring.len() - 1) % ring.len()];
        let (ax, ay) = (from.0 - first.0, from.1 - first.1);
        let (bx, by) = (to.0 - first.0, to.1 - first.1);
        let cross = ax * by - bx * ay;
        area += cross;
        right += (ax + bx) * cross;
        down += (ay + by) * cross;
    }
    if area.abs() < 1e-6 {
        let count = ring.len() as f64;
        let sum = ring.iter().fold((0.0, 0.0), |sum, at| (sum.0 + at.0, sum.1 + at.1));
        return Some((sum.0 / count, sum.1 / count));
    }
    Some((first.0 + right / (3.0 * area), first.1 + down / (3.0 * area)))
}

#[cfg(test)]
mod tests {
    use super::*;

    #[test]
    fn areas_meet_or_do_not() {
        let flat = Area { middle: (100.0, 100.0), width: 80.0, height: 10.0, turn: 0.0 };
        let upright = Area { turn: 90.0, middle: (100.0, 150.0), ..flat };
        assert!(!flat.meets(&upright));
        assert!(flat.meets(&Area { middle: (100.0, 140.0), ..upright }));
        // Their bounds meet, they do not.
        let turned = Area { turn: 45.0, middle: (135.0, 130.0), ..flat };
        assert!(!Area { turn: 45.0, ..flat }.meets(&Area { middle: (110.0, 90.0), ..turned }));
        assert!(flat.inside() && !Area { middle: (39.0, 100.0), ..flat }.inside());
    }

    #[test]
    fn lines_and_rings_are_cut_at_the_edges() {
        let steps = visible(&[(-100.0, 50.0), (100.0, 50.0), (100.0, 2000.0), (300.0, 2000.0)]);
        assert_eq!(steps, [((0.0, 50.0), (100.0, 50.0)), ((100.0, 50.0), (100.0, SIZE))]);
        assert_eq!(along(&steps, 0.0), Some(((0.0, 50.0), 0.0)));
        assert_eq!(length(&steps), 100.0 + SIZE - 50.0);
        let ring = cut_ring(&[(-50.0, -50.0), (50.0, -50.0), (50.0, 50.0), (-50.0, 50.0)]);
        assert_eq!(middle(&ring), Some((25.0, 25.0)));
        assert_eq!(cut_ring(&[(-9.0, -9.0), (-5.0, -9.0), (-5.0, -5.0)]), []);
        assert_eq!(middle(&[(2.0, 4.0), (4.0, 8.0)]), Some((3.0, 6.0)));
    }
}
