//! The Rust's own functions for drawing, merging, measuring, trimming and repeating, cut by name out of its text, over stand-ins as document 01 has them.
//! Of an ellipse the Rust's text has the box, and hands it to a function whose body is in no file: its walk is a reading of
//! document 02. So is a rotation, which the Rust hands to another library.

mod root;
mod sine;

/// What a builder hands over: the codes of the commands, and the numbers of all in one list.
#[derive(Clone, Default)]
pub struct Path {
    pub codes: Vec<u8>,
    pub numbers: Vec<f32>,
}

#[derive(Clone, Copy)]
struct Point {
    x: f32,
    y: f32,
}

/// A command, with points.
enum PathSegment {
    MoveTo(Point),
    LineTo(Point),
    QuadTo(Point, Point),
    CubicTo(Point, Point, Point),
    Close,
}

impl Path {
    /// The commands in order. The codes are listed, and each has its numbers.
    fn segments(&self) -> impl Iterator<Item = PathSegment> + '_ {
        let mut points = self.numbers.chunks(2).map(|p| Point { x: p[0], y: p[1] });
        self.codes.iter().map(move |code| {
            let mut next = || points.next().unwrap();
            match code {
                0 => PathSegment::MoveTo(next()),
                1 => PathSegment::LineTo(next()),
                2 => PathSegment::CubicTo(next(), next(), next()),
                3 => PathSegment::Close,
                _ => PathSegment::QuadTo(next(), next()),
            }
        })
    }
}

/// The lengths of a dash: 0, and what lies before, in and after a visible range.
struct TinyStrokeDash(Vec<f32>);

impl TinyStrokeDash {
    fn new(lengths: Vec<f32>, _: f32) -> Option<TinyStrokeDash> {
        Some(TinyStrokeDash(lengths))
    }
}

impl Path {
    /// Records the dash in place of a path: its three lengths as numbers, and no command.
    fn dash(&self, dash: &TinyStrokeDash, _: f32) -> Option<Path> {
        Some(Path { codes: Vec::new(), numbers: dash.0[1..].to_vec() })
    }
}

/// Appends commands, and hands them over whatever they are.
#[derive(Default)]
struct PathBuilder(Path);

impl PathBuilder {
    fn new() -> PathBuilder {
        PathBuilder::default()
    }

    fn push(&mut self, code: u8, numbers: &[f32]) {
        self.0.codes.push(code);
        self.0.numbers.extend_from_slice(numbers);
    }

    fn move_to(&mut self, x: f32, y: f32) {
        self.push(0, &[x, y]);
    }

    fn line_to(&mut self, x: f32, y: f32) {
        self.push(1, &[x, y]);
    }

    fn cubic_to(&mut self, x1: f32, y1: f32, x2: f32, y2: f32, x: f32, y: f32) {
        self.push(2, &[x1, y1, x2, y2, x, y]);
    }

    fn close(&mut self) {
        self.push(3, &[]);
    }

    fn push_path(&mut self, path: &Path) {
        self.0.codes.extend_from_slice(&path.codes);
        self.0.numbers.extend_from_slice(&path.numbers);
    }

    fn finish(self) -> Option<Path> {
        Some(self.0)
    }

    fn from_rect(rect: Rect) -> Path {
        let mut builder = PathBuilder::new();
        builder.move_to(rect.left, rect.top);
        builder.line_to(rect.right, rect.top);
        builder.line_to(rect.right, rect.bottom);
        builder.line_to(rect.left, rect.bottom);
        builder.close();
        builder.0
    }
}

impl PathBuilder {
    /// Hands the box over in place of a path, which `ellipse_path` makes of it.
    fn from_oval(rect: Rect) -> Option<Path> {
        Some(Path { codes: Vec::new(), numbers: vec![rect.left, rect.top, rect.right, rect.bottom] })
    }
}

/// A rectangle of any numbers.
#[derive(Clone, Copy)]
struct Rect {
    left: f32,
    top: f32,
    right: f32,
    bottom: f32,
}

impl Rect {
    fn from_xywh(x: f32, y: f32, width: f32, height: f32) -> Option<Rect> {
        Some(Rect { left: x, top: y, right: x + width, bottom: y + height })
    }

    fn left(&self) -> f32 {
        self.left
    }

    fn top(&self) -> f32 {
        self.top
    }

    fn right(&self) -> f32 {
        self.right
    }

    fn bottom(&self) -> f32 {
        self.bottom
    }
}

pub struct BezierPath {
    pub closed: bool,
    pub vertices: Vec<BezierVertex>,
}

pub struct BezierVertex {
    pub vertex: [f32; 2],
    pub in_tangent: [f32; 2],
    pub out_tangent: [f32; 2],
}

/// A trim, sampled already.
pub struct TrimStyle {
    pub start: f32,
    pub end: f32,
    pub offset_degrees: f32,
    pub mode: u8,
}

/// A repeater, sampled already.
pub struct RepeaterStyle {
    pub copies: f32,
    pub offset: f32,
    pub mode: u8,
    pub anchor: [f32; 2],
    pub position: [f32; 2],
    pub scale: [f32; 2],
    pub rotation: f32,
    pub start_opacity: f32,
    pub end_opacity: f32,
}

/// Sends (p, q) to (a p + c q + e, b p + d q + f), the six numbers being a to f.
#[derive(Clone, Copy)]
pub struct PixmapTransform(pub [f32; 6]);

impl PixmapTransform {
    fn identity() -> PixmapTransform {
        PixmapTransform([1.0, 0.0, 0.0, 1.0, 0.0, 0.0])
    }

    fn product(self, right: PixmapTransform) -> PixmapTransform {
        let [a, b, c, d, e, f] = self.0;
        let [p, q, r, s, t, u] = right.0;
        PixmapTransform([
            a * p + c * q,
            b * p + d * q,
            a * r + c * s,
            b * r + d * s,
            a * t + c * u + e,
            b * t + d * u + f,
        ])
    }

    fn pre_translate(self, x: f32, y: f32) -> PixmapTransform {
        let [a, b, c, d, e, f] = self.0;
        PixmapTransform([a, b, c, d, a * x + c * y + e, b * x + d * y + f])
    }

    fn pre_scale(self, x: f32, y: f32) -> PixmapTransform {
        let [a, b, c, d, e, f] = self.0;
        PixmapTransform([a * x, b * x, c * y, d * y, e, f])
    }

    /// The rotation by document 02's text, in degrees. An angle that comes to zero leaves the matrix as it is.
    fn pre_rotate(self, degrees: f32) -> PixmapTransform {
        let angle = sine::sixteenths(degrees);
        if angle == 0 {
            return self;
        }
        let (cos, sin) = (sine::cosine(angle), sine::sine(angle));
        let [a, b, c, d, e, f] = self.0;
        PixmapTransform([a * cos + c * sin, b * cos + d * sin, a * -sin + c * cos, b * -sin + d * cos, e, f])
    }
}

#[derive(Clone, Copy)]
pub struct RenderTransform {
    pub matrix: PixmapTransform,
    pub opacity: f32,
}

impl Default for RenderTransform {
    fn default() -> RenderTransform {
        RenderTransform { matrix: PixmapTransform::identity(), opacity: 1.0 }
    }
}

impl RenderTransform {
    /// The transform so far on the left, the step on the right.
    fn concat(self, step: RenderTransform) -> RenderTransform {
        RenderTransform { matrix: self.matrix.product(step.matrix), opacity: self.opacity * step.opacity }
    }
}

/// An item, sampled already, and the row that it comes from.
#[derive(Default)]
pub struct ShapeItem {
    pub item_type: String,
    pub hidden: bool,
    pub items: Vec<ShapeItem>,
    /// The mode of a merge; 0 stands for none.
    pub mode: u8,
    pub path: Option<BezierPath>,
    pub position: Option<[f32; 2]>,
    pub size: Option<[f32; 2]>,
    pub roundness: Option<f32>,
    pub row: usize,
}

impl ShapeItem {
    fn rectangle_roundness(&self) -> Option<f32> {
        self.roundness
    }

    fn merge_mode(&self) -> Option<u8> {
        (self.mode != 0).then_some(self.mode)
    }
}

/// Has a path for every source, which is a move to the number of its row.
struct StaticPathCache;

impl StaticPathCache {
    fn path(&self, item: &ShapeItem) -> Path {
        let mut builder = PathBuilder::new();
        builder.move_to(item.row as f32, 0.0);
        builder.0
    }
}

mod sample_cache {
    pub struct TimelineSampleCache;
}

/// Sampling hands back the numbers given.
mod values {
    use crate::sample_cache::TimelineSampleCache;

    type Cache<'a> = Option<&'a TimelineSampleCache>;

    pub fn position_vec2_at(value: Option<&[f32; 2]>, _: f32, otherwise: [f32; 2], _: Cache) -> [f32; 2] {
        *value.unwrap_or(&otherwise)
    }

    pub fn vec2_at(value: Option<&[f32; 2]>, _: f32, otherwise: [f32; 2], _: Cache) -> [f32; 2] {
        *value.unwrap_or(&otherwise)
    }

    pub fn scalar_at(value: Option<&f32>, _: f32, otherwise: f32, _: Cache) -> f32 {
        *value.unwrap_or(&otherwise)
    }
}

/// An f32 whose `hypot` is document 01's, so that the Rust's `distance` can be compiled as it stands.
mod exact {
    use crate::root::quick_hypot;
    use std::ops::Sub;

    #[derive(Clone, Copy)]
    pub struct Exact(pub f32);

    impl Sub for Exact {
        type Output = Exact;

        fn sub(self, other: Exact) -> Exact {
            Exact(self.0 - other.0)
        }
    }

    impl Exact {
        pub fn hypot(self, other: Exact) -> Exact {
            Exact(quick_hypot(self.0, other.0))
        }
    }

    mod text {
        use super::Exact as f32;

        include!("../../target/oracle/rust_text_values.rs");

        pub fn exact_distance(a: [f32; 2], b: [f32; 2]) -> f32 {
            distance(a, b)
        }
    }

    pub fn distance(a: [f32; 2], b: [f32; 2]) -> f32 {
        text::exact_distance(a.map(Exact), b.map(Exact)).0
    }
}

mod drawing_paths {
    use crate::exact::distance;
    use crate::values::{position_vec2_at, scalar_at, vec2_at};
    use crate::{BezierPath, Path, PathBuilder, PathSegment, Rect, ShapeItem, TinyStrokeDash, TrimStyle};
    use crate::{PixmapTransform, RenderTransform, RepeaterStyle, StaticPathCache};
    use std::mem;
    use std::rc::Rc;

    include!("../../target/oracle/rust_text.rs");

    pub fn rect_path(item: &ShapeItem) -> Option<Path> {
        build_rect_path(item, 0.0, None)
    }

    /// An ellipse by document 02's text, in the Rust's own box. Each end is left along one axis: the control point after it
    /// lies that far on, and the one before it that far back.
    pub fn ellipse_path(item: &ShapeItem) -> Option<Path> {
        let [x, y] = item.position?;
        let [width, height] = item.size?;
        let sides = build_ellipse_path(item, 0.0, None)?.numbers;
        let &[left, top, right, bottom] = &sides[..] else { panic!("a box has four sides") };
        let [across, down] = [width, height].map(|side| 0.5 * side.abs() * 0.5522848);
        let ends = [[x, top], [right, y], [x, bottom], [left, y]];
        let leaving = [(0, across), (1, down), (0, -across), (1, -down)];
        let control = |end: usize, sign: f32| {
            let (axis, by) = leaving[end];
            let mut point = ends[end];
            point[axis] += sign * by;
            point
        };
        let mut builder = PathBuilder::new();
        builder.move_to(x, top);
        for (start, end) in [(0, 1), (1, 2), (2, 3), (3, 0)] {
            let ([x1, y1], [x2, y2], [x, y]) = (control(start, 1.0), control(end, -1.0), ends[end]);
            builder.cubic_to(x1, y1, x2, y2, x, y);
        }
        builder.close();
        builder.finish()
    }

    /// Hands over the cache's path, where there is a cache, and else draws a path, a rectangle or an ellipse.
    fn build_shape_source_path(
        item: &ShapeItem,
        frame: f32,
        static_path_cache: Option<&StaticPathCache>,
        timeline_sample_cache: Option<&super::sample_cache::TimelineSampleCache>,
    ) -> Option<Rc<Path>> {
        if let Some(cache) = static_path_cache {
            return Some(Rc::new(cache.path(item)));
        }
        match item.item_type.as_str() {
            "rc" => build_rect_path(item, frame, timeline_sample_cache).map(Rc::new),
            "sh" => build_bezier_path(item.path.as_ref()?).map(Rc::new),
            "el" => ellipse_path(item).map(Rc::new),
            _ => None,
        }
    }

    pub fn joined_rows(items: &[ShapeItem]) -> Option<Vec<usize>> {
        let path = build_supported_merge_path(items, 0.0, Some(&StaticPathCache), None, None)?;
        Some(path.numbers.chunks(2).map(|point| point[0] as usize).collect())
    }

    pub fn merged_path(items: &[ShapeItem]) -> Option<Path> {
        build_supported_merge_path(items, 0.0, None, None, None)
    }

    pub fn path_length(path: &Path) -> f32 {
        approx_path_length(path)
    }

    pub fn trim_ranges(trim: &TrimStyle) -> (Vec<(f32, f32)>, bool) {
        let ranges = normalized_trim_segments(trim);
        let full = is_full_trim_segments(&ranges);
        (ranges, full)
    }

    pub fn trimmed(path: &Path, trim: &TrimStyle) -> Option<Path> {
        trim_path(path, trim)
    }

    pub fn copy_order(repeater: &RepeaterStyle) -> Vec<usize> {
        repeater_copy_order(repeater)
    }

    pub fn copy_transform(repeater: &RepeaterStyle, copy: usize) -> RenderTransform {
        repeater_transform_for_copy(repeater, copy)
    }
}

/// The path of a vertex list; none where there is no vertex.
pub fn bezier_path(path: &BezierPath) -> Option<Path> {
    drawing_paths::build_bezier_path(path)
}

/// The path of a rectangle.
pub fn rect_path(item: &ShapeItem) -> Option<Path> {
    drawing_paths::rect_path(item)
}

/// The path of an ellipse: the Rust's box, and document 02's walk.
pub fn ellipse_path(item: &ShapeItem) -> Option<Path> {
    drawing_paths::ellipse_path(item)
}

/// The rows that a merge joins, whether or not each can be drawn; none where nothing is merged.
pub fn joined_rows(items: &[ShapeItem]) -> Option<Vec<usize>> {
    drawing_paths::joined_rows(items)
}

/// The path of a merge whose sources are paths, rectangles and ellipses that can be drawn; none where nothing is merged.
pub fn merged_path(items: &[ShapeItem]) -> Option<Path> {
    drawing_paths::merged_path(items)
}

/// The length of a path.
pub fn path_length(path: &Path) -> f32 {
    drawing_paths::path_length(path)
}

/// The visible ranges of a trim, and whether they are the whole path.
pub fn trim_ranges(trim: &TrimStyle) -> (Vec<(f32, f32)>, bool) {
    drawing_paths::trim_ranges(trim)
}

/// The recorded dashes of a trimmed path, three numbers each; the path itself where it is visible whole.
pub fn trimmed(path: &Path, trim: &TrimStyle) -> Option<Path> {
    drawing_paths::trimmed(path, trim)
}

/// The copies of a repeater in the order in which they are drawn.
pub fn copy_order(repeater: &RepeaterStyle) -> Vec<usize> {
    drawing_paths::copy_order(repeater)
}

/// The matrix and the opacity of one copy.
pub fn copy_transform(repeater: &RepeaterStyle, copy: usize) -> RenderTransform {
    drawing_paths::copy_transform(repeater, copy)
}
