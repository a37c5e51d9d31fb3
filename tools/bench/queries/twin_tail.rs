struct Draws { state: u64 }
impl Draws {
    fn below(&mut self, end: u64) -> u64 {
        self.state ^= self.state << 13;
        self.state ^= self.state >> 7;
        self.state ^= self.state << 17;
        (self.state >> 16) % end
    }
    fn cell(&mut self, side: u16) -> Cell {
        let end = u64::from(side);
        let x = self.below(end) as u16;
        let y = self.below(end) as u16;
        Cell { x, y }
    }
}

fn sum(found: Option<(Cell, Near)>) -> u64 {
    match found {
        Some((cell, near)) => u64::from(near.dist) + 3 * u64::from(cell.x) + 5 * u64::from(cell.y) + 7 * u64::from(near.cell.x.unsigned_abs()) + 11 * u64::from(near.cell.y.unsigned_abs()),
        None => 1,
    }
}

fn fill_walk(draws: &mut Draws, side: u16, points: &mut [Cell]) {
    let mut point = draws.cell(side);
    for place in points.iter_mut() {
        *place = point;
        let to = draws.below(17) as u16;
        let last = side - 1;
        if draws.below(2) == 0 {
            point.x = (point.x + to).saturating_sub(8).min(last);
        } else {
            point.y = (point.y + to).saturating_sub(8).min(last);
        }
    }
}

fn ask(bitmap: &Bitmap, edge: Edge, draws: &mut Draws, kind: usize, points: &mut [Cell]) -> u64 {
    let side = bitmap.width();
    let from = draws.cell(side);
    let mut rows = bitmap;
    match kind {
        0 => sum(nearest_spot::<Euclid2, &Bitmap>(&mut rows, edge, from, NO_LIMIT).map(|near| (from, near))),
        1 => {
            let (x0, y0) = (from.x.min(side - 64), from.y.min(side - 64));
            sum(least_of_rect::<Euclid2, &Bitmap>(&mut rows, edge, Rect { x0, y0, x1: x0 + 64, y1: y0 + 64 }))
        }
        2 | 3 => {
            let x = from.x.min(side - 1000);
            let path = [Cell { x, y: from.y }, Cell { x: x + 999, y: from.y }];
            sum(if kind == 2 { least_of_path::<Euclid2, &Bitmap>(&mut rows, edge, path[0], &path) } else { first_along::<Euclid2, &Bitmap>(&mut rows, edge, path[0], &path, 16) })
        }
        _ => {
            fill_walk(draws, side, points);
            sum(least_of_path::<Euclid2, &Bitmap>(&mut rows, edge, points[0], points))
        }
    }
}

fn bitmap_of(bytes: &[u8]) -> Bitmap {
    let mut lines = bytes.splitn(3, |byte| *byte == b'\n');
    lines.next();
    let sides = String::from_utf8(lines.next().unwrap().to_vec()).unwrap();
    let sides: Vec<u16> = sides.split(' ').map(|side| side.parse().unwrap()).collect();
    let (width, height) = (sides[0], sides[1]);
    let across = usize::from(width).div_ceil(64);
    let mut bitmap = Bitmap { width, height, words: vec![0; across * usize::from(height)], bands: 0, marks: vec![0; 64] };
    assert!(read_raw(&mut bitmap, lines.next().unwrap()).is_ok());
    bitmap
}

fn main() {
    let bytes = std::fs::read(std::env::args().nth(1).unwrap()).unwrap();
    let edge = if std::env::args().nth(2).as_deref() == Some("wall") { Edge::Wall } else { Edge::Open };
    let mut least = u128::MAX;
    for _ in 0..5 {
        let start = Instant::now();
        std::hint::black_box(bitmap_of(&bytes));
        least = least.min(start.elapsed().as_micros());
    }
    println!("read_image {least} 0");
    let bitmap = bitmap_of(&bytes);
    for (kind, (name, count)) in [("at", 2000), ("least_in", 200), ("along", 200), ("clear_of", 2000), ("walk", 50)].iter().enumerate() {
        let mut points = [Cell { x: 0, y: 0 }; 1000];
        let (mut least, mut answers) = (u128::MAX, 0u64);
        for _ in 0..5 {
            let mut draws = Draws { state: 20261123 };
            answers = 0;
            let start = Instant::now();
            for _ in 0..*count {
                answers = answers.wrapping_mul(31).wrapping_add(ask(&bitmap, edge, &mut draws, kind, &mut points));
            }
            least = least.min(start.elapsed().as_nanos() / count);
        }
        println!("{name} {least} {answers}");
    }
}
