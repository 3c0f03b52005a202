//! Records built of their parts, for the tests and the comparison.

/// The record with this dimension and body.
pub fn record(dimension: u32, body: &[u8]) -> Vec<u8> {
    [&dimension.to_le_bytes(), body].concat()
}

/// The fvecs record of readings.
pub fn fvecs(readings: &[f32]) -> Vec<u8> {
    let patterns: Vec<u32> = readings.iter().map(|reading| reading.to_bits()).collect();
    fvecs_of_patterns(&patterns)
}

/// The fvecs record of binary32 patterns, NaNs of any payload among them.
pub fn fvecs_of_patterns(patterns: &[u32]) -> Vec<u8> {
    let body: Vec<u8> = patterns.iter().flat_map(|pattern| pattern.to_le_bytes()).collect();
    record(patterns.len() as u32, &body)
}

/// The fvecs record of whole units.
pub fn fvecs_of_units(units: &[i32]) -> Vec<u8> {
    let readings: Vec<f32> = units.iter().map(|&x| x as f32 / 1024.0).collect();
    fvecs(&readings)
}

/// The bvecs record of a body.
pub fn bvecs(body: &[u8]) -> Vec<u8> {
    record(body.len() as u32, body)
}
