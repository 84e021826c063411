//! Holds every pixel to the side that it is on, after msdfgen's sign correction: where the middle value says otherwise,
//! all channels are flipped.

use crate::field::middle;
use crate::frame::Frame;
use crate::winding::Fill;

/// Values whose zero distance is 0.5, by rows from the top.
pub fn correct<const N: usize>(values: &mut [[f64; N]], frame: &Frame, fill: &Fill) {
    let width = frame.width;
    let mut flipped = vec![0; values.len()];
    for (row, pixels) in values.chunks_mut(width.max(1)).enumerate() {
        let scanline = fill.scanline(frame.middle(0, row).y);
        for (x, pixel) in pixels.iter_mut().enumerate() {
            let value = middle(pixel);
            let inside = scanline.inside(frame.middle(x, row).x);
            if value != 0.5 && (value > 0.5) != inside {
                flip(pixel);
                flipped[row * width + x] = 1;
            } else if value != 0.5 {
                flipped[row * width + x] = -1;
            }
        }
    }
    follow_neighbours(values, width, &flipped);
}

fn flip<const N: usize>(pixel: &mut [f64; N]) {
    *pixel = pixel.map(|value| 1.0 - value);
}

/// A pixel on the outline shows no side: it is flipped where more of its neighbours were than were not.
fn follow_neighbours<const N: usize>(values: &mut [[f64; N]], width: usize, flipped: &[i32]) {
    for at in (0..values.len()).filter(|&at| flipped[at] == 0) {
        let (x, last) = (at % width, values.len());
        let left = (x > 0).then(|| flipped[at - 1]);
        let right = (x + 1 < width).then(|| flipped[at + 1]);
        let above = at.checked_sub(width).map(|at| flipped[at]);
        let below = (at + width < last).then(|| flipped[at + width]);
        if [left, right, above, below].into_iter().flatten().sum::<i32>() > 0 {
            flip(&mut values[at]);
        }
    }
}

#[cfg(test)]
mod tests {
    use super::*;
    use crate::source::{EdgeSegment, Shape, Vector2};

    /// The left half of a box of four pixels by one is inside.
    #[test]
    fn wrong_signs_are_flipped() {
        let corners = [(0.0, 0.0), (0.0, 1.0), (2.0, 1.0), (2.0, 0.0)].map(|(x, y)| Vector2::new(x, y));
        let mut shape = Shape::new();
        let contour = shape.add_contour_mut();
        (0..4).for_each(|i| contour.add_edge(EdgeSegment::line(corners[i], corners[(i + 1) % 4])));
        let frame = Frame::at_origin(4, 1);
        let right = [[0.9, 0.75, 0.5], [0.5, 0.75, 0.75], [0.25, 0.25, 0.25], [0.75, 0.25, 0.0]];
        for flipped in 0..16 {
            let mut values = right;
            (0..4).filter(|i| flipped >> i & 1 == 1).for_each(|i| flip(&mut values[i]));
            correct(&mut values, &frame, &Fill::new(&shape));
            let near = |a: &[f64; 3], b: &[f64; 3]| a.iter().zip(b).all(|(a, b)| (a - b).abs() < 1e-12);
            assert!(values.iter().zip(&right).all(|(a, b)| near(a, b)), "{flipped}: {values:?}");
        }
    }

    #[test]
    fn on_the_outline() {
        let mut values = [[0.2, 0.5, 0.9]; 3];
        follow_neighbours(&mut values, 3, &[1, 0, -1]);
        assert_eq!(values[1], [0.2, 0.5, 0.9]);
        follow_neighbours(&mut values, 3, &[1, 0, 1]);
        assert_eq!(values[1], [0.8, 0.5, 1.0 - 0.9]);
        follow_neighbours(&mut values, 1, &[-1, 0, -1]);
        assert_eq!(values[1], [0.8, 0.5, 1.0 - 0.9]);
    }
}
