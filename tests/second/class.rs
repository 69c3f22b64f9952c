//! Class: 0 special to 4.

/// The class of the first limit that the figure is at or over; 4 under all.
fn class_from(figure: i64, limits: [i64; 4]) -> i64 {
    for (class, limit) in limits.into_iter().enumerate() {
        if figure >= limit {
            return class as i64;
        }
    }
    4
}

/// "Ship from 40,000, 20,000, 10,000, 5,000 t."
pub fn ship_class(deadweight: i64) -> i64 {
    class_from(deadweight, [40_000, 20_000, 10_000, 5_000])
}

/// "Width without widening from 110, 90, 70, 50 m, or 240, 200, 160, 120 for two lanes."
pub fn width_class(width_cm: i64, lanes: i64) -> i64 {
    if lanes == 1 {
        class_from(width_cm, [11_000, 9_000, 7_000, 5_000])
    } else {
        class_from(width_cm, [24_000, 20_000, 16_000, 12_000])
    }
}

/// "Depth by s from 14, 11, 9, 8 m."
pub fn depth_class(s_cm: i64) -> i64 {
    class_from(s_cm, [1_400, 1_100, 900, 800])
}

/// "The route takes the smallest ship class of its answered stretches", "5 if none answered".
pub fn route_class(ship_classes: &[i64]) -> i64 {
    ship_classes.iter().copied().min().unwrap_or(5)
}
