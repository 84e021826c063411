//! Packs boxes in rows, the tallest first, into the smallest picture that holds them.

use std::iter::successors;

/// Where each box begins, from the top left, and the picture.
#[derive(Debug, PartialEq)]
pub struct Packing {
    pub width: usize,
    pub height: usize,
    pub places: Vec<(usize, usize)>,
}

/// The longest side of a picture.
pub const MAX_SIDE: usize = 8192;

/// What a picture may be.
#[derive(Clone, Copy, Debug, PartialEq, Eq)]
pub enum Dimensions {
    Fixed(usize, usize),
    Least(Constraint),
}

/// The sides of a picture.
#[derive(Clone, Copy, Debug, PartialEq, Eq)]
pub enum Constraint {
    Rectangle,
    /// With sides that are a multiple.
    Square(usize),
    PowerOfTwoSquare,
    PowerOfTwoRectangle,
}

impl Constraint {
    /// The least sides that are as long as these.
    pub fn raise(self, (width, height): (usize, usize)) -> (usize, usize) {
        let longer = width.max(height).max(1);
        match self {
            Constraint::Rectangle => (width, height),
            Constraint::Square(multiple) => [longer.next_multiple_of(multiple); 2].into(),
            Constraint::PowerOfTwoSquare => [longer.next_power_of_two(); 2].into(),
            Constraint::PowerOfTwoRectangle => (width.next_power_of_two(), height.next_power_of_two()),
        }
    }

    /// Sides of growing length, from the first square on that has an area and holds a length.
    fn sides(self, area: usize, longest: usize) -> impl Iterator<Item = (usize, usize)> {
        let first = match self {
            // half of a square may do
            Constraint::PowerOfTwoRectangle => (area / 2).isqrt().max(longest / 2),
            _ => area.isqrt().max(longest),
        };
        let next = move |&(width, height): &(usize, usize)| match self {
            Constraint::Rectangle => Some((width + 1, height + 1)),
            Constraint::Square(multiple) => Some((width + multiple, height + multiple)),
            Constraint::PowerOfTwoSquare => Some((2 * width, 2 * height)),
            Constraint::PowerOfTwoRectangle if width == height => Some((2 * width, height)),
            Constraint::PowerOfTwoRectangle => Some((width, 2 * height)),
        };
        successors(Some(self.raise((first, first))), next).take_while(|&(width, height)| width.max(height) <= MAX_SIDE)
    }
}

/// None where the boxes do not fit, or a side would be too long.
pub fn pack(sizes: &[(usize, usize)], dimensions: Dimensions) -> Option<Packing> {
    let mut order: Vec<usize> = (0..sizes.len()).collect();
    order.sort_by_key(|&i| std::cmp::Reverse(sizes[i].1));
    let longest = sizes.iter().map(|&(width, height)| width.max(height)).max().unwrap_or(0);
    if longest > MAX_SIDE {
        return None;
    }
    let area: usize = sizes.iter().map(|(width, height)| width * height).sum();
    let packed = |(width, height): (usize, usize)| {
        let places = rows(sizes, &order, width, height)?;
        Some(Packing { width, height, places })
    };
    match dimensions {
        Dimensions::Fixed(width, height) => packed((width, height)),
        Dimensions::Least(constraint) => constraint.sides(area, longest).find_map(packed),
    }
}

/// Fills rows of a picture from the top.
fn rows(sizes: &[(usize, usize)], order: &[usize], across: usize, down: usize) -> Option<Vec<(usize, usize)>> {
    let mut places = vec![(0, 0); sizes.len()];
    let (mut x, mut top, mut bottom) = (0, 0, 0);
    for &i in order {
        let (width, height) = sizes[i];
        if width > across {
            return None;
        }
        if x + width > across {
            (x, top) = (0, bottom);
        }
        places[i] = (x, top);
        x += width;
        bottom = bottom.max(top + height);
    }
    (bottom <= down).then_some(places)
}

#[cfg(test)]
mod tests {
    use super::*;

    const LEAST: Dimensions = Dimensions::Least(Constraint::Square(4));

    fn boxes() -> Vec<(usize, usize)> {
        (0..200).map(|i| (1 + i * 7 % 31, 1 + i * 11 % 43)).chain([(0, 0)]).collect()
    }

    /// How many pixels are in a box: each in one at most.
    fn filled(Packing { width, height, places }: &Packing, sizes: &[(usize, usize)]) -> usize {
        let mut taken = vec![false; width * height];
        for (&(x, y), &(across, down)) in places.iter().zip(sizes) {
            assert!(x + across <= *width && y + down <= *height);
            for at in (y..y + down).flat_map(|y| (x..x + across).map(move |x| y * width + x)) {
                assert!(!std::mem::replace(&mut taken[at], true));
            }
        }
        taken.iter().filter(|&&t| t).count()
    }

    #[test]
    fn boxes_are_apart_and_inside() {
        let sizes = boxes();
        let packing = pack(&sizes, LEAST).unwrap();
        assert!(packing.width == packing.height && packing.width % 4 == 0);
        let filled = filled(&packing, &sizes);
        assert!(filled * 10 >= packing.width * packing.height * 8, "{filled} of {}", packing.width * packing.height);
    }

    #[test]
    fn dimensions() {
        let sizes = boxes();
        let area: usize = sizes.iter().map(|(width, height)| width * height).sum();
        for (constraint, expected) in [
            (Constraint::PowerOfTwoSquare, (512, 512)),
            (Constraint::PowerOfTwoRectangle, (512, 256)),
            (Constraint::Square(1), (274, 274)),
            (Constraint::Square(4), (276, 276)),
        ] {
            let packing = pack(&sizes, Dimensions::Least(constraint)).unwrap();
            assert_eq!((filled(&packing, &sizes), (packing.width, packing.height)), (area, expected), "{constraint:?}");
        }
        let packing = pack(&sizes, Dimensions::Fixed(700, 150)).unwrap();
        assert_eq!((filled(&packing, &sizes), packing.width, packing.height), (area, 700, 150));
        assert_eq!(pack(&sizes, Dimensions::Fixed(30, 8000)), None, "one is wider");
        assert_eq!(pack(&sizes, Dimensions::Fixed(700, 80)), None);
    }

    #[test]
    fn nothing_and_one() {
        assert_eq!(pack(&[], LEAST), Some(Packing { width: 4, height: 4, places: vec![] }));
        assert_eq!(pack(&[(9, 3)], LEAST), Some(Packing { width: 12, height: 12, places: vec![(0, 0)] }));
        let potr = Dimensions::Least(Constraint::PowerOfTwoRectangle);
        assert_eq!(pack(&[(9, 3)], potr), Some(Packing { width: 16, height: 8, places: vec![(0, 0)] }));
    }

    #[test]
    fn too_large() {
        assert_eq!(pack(&[(8192, 1)], LEAST), Some(Packing { width: 8192, height: 8192, places: vec![(0, 0)] }));
        for sizes in [[(8193, 1), (1, 1)], [(1, 8193), (1, 1)], [(usize::MAX, 2), (2, usize::MAX)], [(8192, 4097), (8192, 4096)]]
        {
            assert_eq!(pack(&sizes, LEAST), None, "{sizes:?}");
        }
    }
}
