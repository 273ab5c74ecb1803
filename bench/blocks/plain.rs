// A plain program of the job of `vcm blocks`: a triangle mesh to a part file whose blocks cover it. Whole numbers alone; nothing is proved of it.
use std::collections::HashMap;
use std::io::Write;
use std::time::Instant;

type P = [i64; 3];
type Tri = [P; 3];
const NEAR: i64 = 1_000_000_000;

fn die(text: &str) -> ! {
    eprintln!("{text}");
    std::process::exit(1)
}

// ---------- reading ----------

// m * 2^e * scale micrometres, to the nearest whole one, halves away from 0
fn of_f32(bits: u32, scale: i64) -> Option<i64> {
    let exp = ((bits >> 23) & 255) as i32;
    if exp == 255 {
        return None;
    }
    let frac = (bits & 0x7f_ffff) as i128;
    let (m, e) = if exp == 0 { (frac, -149) } else { (frac | 0x80_0000, exp - 150) };
    let v = m * scale as i128;
    let r = if e >= 0 {
        if m != 0 && e > 30 {
            return Some(i64::MAX);
        }
        v << e
    } else if e < -100 {
        0
    } else {
        (v + (1i128 << (-e - 1))) >> -e
    };
    let r = r.min(i64::MAX as i128) as i64;
    Some(if bits >> 31 == 1 { -r } else { r })
}

fn of_decimal(word: &str, scale: i64) -> Option<i64> {
    let b = word.as_bytes();
    let mut i = 0;
    let neg = b.first() == Some(&b'-');
    if b.first() == Some(&b'-') || b.first() == Some(&b'+') {
        i = 1;
    }
    let (mut m, mut exp, mut any, mut sticky) = (0i128, 0i64, false, false);
    let mut point = false;
    while i < b.len() {
        match b[i] {
            b'0'..=b'9' => {
                any = true;
                if m < 1_000_000_000_000_000_000_000_000 {
                    m = m * 10 + (b[i] - b'0') as i128;
                    if point {
                        exp -= 1;
                    }
                } else {
                    sticky |= b[i] != b'0';
                    if !point {
                        exp += 1;
                    }
                }
            }
            b'.' if !point => point = true,
            _ => break,
        }
        i += 1;
    }
    if !any {
        return None;
    }
    if i < b.len() {
        if b[i] != b'e' && b[i] != b'E' {
            return None;
        }
        let e: i64 = word[i + 1..].parse().ok()?;
        exp += e;
    }
    let _ = sticky;
    let mut v = m * scale as i128;
    if m == 0 {
        return Some(0);
    }
    if exp > 0 {
        for _ in 0..exp {
            v *= 10;
            if v > 1 << 90 {
                return Some(i64::MAX);
            }
        }
    }
    if exp < 0 {
        if exp < -36 {
            return Some(0);
        }
        let d = 10i128.pow((-exp) as u32);
        v = (2 * v + d) / (2 * d);
    }
    let v = v.min(i64::MAX as i128) as i64;
    Some(if neg { -v } else { v })
}

struct Mesh {
    tris: Vec<Tri>,
    normals: Vec<[f32; 3]>, // only whether they point as the corners turn
    kind: &'static str,
}

fn point(c: [Option<i64>; 3], number: usize) -> P {
    let mut p = [0; 3];
    for k in 0..3 {
        match c[k] {
            None => die(&format!("M04 NoNumber triangle {number}")),
            Some(x) if x > NEAR || x < -NEAR => die(&format!("M05 OutOfRange triangle {number}")),
            Some(x) => p[k] = x,
        }
    }
    p
}

fn read_mesh(bytes: &[u8], scale: i64) -> Mesh {
    let le = |at: usize| u32::from_le_bytes(bytes[at..at + 4].try_into().unwrap());
    if bytes.len() >= 84 && bytes.len() as u64 == 84 + 50 * le(80) as u64 {
        let n = le(80) as usize;
        if n == 0 {
            die("M06 NoTriangles");
        }
        let (mut tris, mut normals) = (Vec::with_capacity(n), Vec::with_capacity(n));
        for i in 0..n {
            let at = 84 + 50 * i;
            normals.push([f32::from_bits(le(at)), f32::from_bits(le(at + 4)), f32::from_bits(le(at + 8))]);
            let mut t = [[0; 3]; 3];
            for c in 0..3 {
                let o = at + 12 + 12 * c;
                t[c] = point([of_f32(le(o), scale), of_f32(le(o + 4), scale), of_f32(le(o + 8), scale)], i + 1);
            }
            tris.push(t);
        }
        return Mesh { tris, normals, kind: "binary STL" };
    }
    let start = bytes.iter().position(|b| !b.is_ascii_whitespace()).unwrap_or(bytes.len());
    if bytes[start..].len() >= 5 && bytes[start..start + 5].eq_ignore_ascii_case(b"solid") {
        // lines: names of solids may hold anything
        let (mut tris, mut normals) = (Vec::new(), Vec::new());
        let mut corners: Vec<P> = Vec::new();
        let mut normal = [0.0f32; 3];
        let mut state = 0; // 0 outside a solid, 1 in one, 2 in a facet, 3 in a loop, 4 behind it
        let mut count = 0;
        for (l, line) in bytes.split(|b| *b == b'\n').enumerate() {
            let bad = |_what: &str| -> ! { die(&format!("M03 BadText line {}", l + 1)) };
            let words: Vec<String> = line
                .split(|b| b.is_ascii_whitespace())
                .filter(|w| !w.is_empty())
                .map(|w| String::from_utf8_lossy(w).to_ascii_lowercase())
                .collect();
            let w: Vec<&str> = words.iter().map(|s| s.as_str()).collect();
            if w.is_empty() {
                continue;
            }
            match (state, w[0]) {
                (0, "solid") => state = 1,
                (1, "endsolid") => state = 0,
                (1, "facet") => {
                    if w.len() != 5 {
                        bad("facet wants normal and three numbers")
                    }
                    for k in 0..3 {
                        normal[k] = w[2 + k].parse().unwrap_or(f32::NAN);
                    }
                    state = 2
                }
                (2, "outer") => state = 3,
                (3, "vertex") => {
                    if w.len() != 4 {
                        bad("vertex wants three numbers")
                    }
                    corners.push(point([of_decimal(w[1], scale), of_decimal(w[2], scale), of_decimal(w[3], scale)], count + 1))
                }
                (3, "endloop") => {
                    if corners.len() != 3 {
                        bad("a loop wants three corners")
                    }
                    state = 4
                }
                (4, "endfacet") => {
                    tris.push([corners[0], corners[1], corners[2]]);
                    normals.push(normal);
                    corners.clear();
                    count += 1;
                    state = 1
                }
                _ => bad("not expected here"),
            }
        }
        if state != 0 {
            die(&format!("M03 BadText line {}", bytes.split(|b| *b == b'\n').count()));
        }
        if tris.is_empty() {
            die("M06 NoTriangles");
        }
        return Mesh { tris, normals, kind: "text STL" };
    }
    if bytes.len() >= 84 {
        die(&format!("M02 BadLength {} triangles take {} bytes, the file has {}", le(80), 84 + 50 * le(80) as u64, bytes.len()));
    }
    die("M01 NotStl")
}

// ---------- the grid ----------

struct Grid {
    planes: [Vec<i64>; 3],
    n: [usize; 3], // elements on each axis: 2 * planes - 1
}

impl Grid {
    fn at(&self, x: usize, y: usize, z: usize) -> usize {
        (z * self.n[1] + y) * self.n[0] + x
    }
    fn low(&self, k: usize, i: usize) -> i64 {
        self.planes[k][i / 2]
    }
    fn high(&self, k: usize, i: usize) -> i64 {
        self.planes[k][(i + 1) / 2]
    }
    // the elements whose closure holds something of [a, b], the least and the greatest
    fn span(&self, k: usize, a: i64, b: i64) -> (usize, usize) {
        let p = &self.planes[k];
        let i = match p.binary_search(&a) {
            Ok(i) => 2 * i,
            Err(i) => 2 * i - 1,
        };
        let j = match p.binary_search(&b) {
            Ok(j) => 2 * j,
            Err(j) => 2 * j - 1,
        };
        (i, j)
    }
}

// The planes of each axis: those of the triangles that are across it, and between them even steps of at most `cell` where a triangle
// leans on this axis; where all triangles run along it, the corners alone.
fn planes_of(tris: &[Tri], cell: i64, align: bool, most_planes: usize, near: &[(P, usize, i64)]) -> [Vec<i64>; 3] {
    let mut out: [Vec<i64>; 3] = [vec![], vec![], vec![]];
    for k in 0..3 {
        let low = tris.iter().flatten().map(|p| p[k]).min().unwrap();
        let high = tris.iter().flatten().map(|p| p[k]).max().unwrap();
        let mut weight: HashMap<i64, i128> = HashMap::new();
        let mut corners: Vec<i64> = vec![];
        let mut leaning: Vec<(i64, i64)> = vec![];
        for t in tris {
            let (a, b) = (t[0][k].min(t[1][k]).min(t[2][k]), t[0][k].max(t[1][k]).max(t[2][k]));
            let n = normal(t);
            if a == b {
                if align {
                    *weight.entry(a).or_default() += n[k].abs();
                }
            } else if !align || n[k] != 0 || n == [0, 0, 0] {
                leaning.push((a, b));
            }
            corners.extend([t[0][k], t[1][k], t[2][k]]);
        }
        // a triangle along the axis may stand for the whole height of a slab only if each of its edges that slides along the axis goes on, in
        // the same plane, in one other triangle on the other side of that edge
        if align {
            let mut sliding: HashMap<(P, P), Vec<(usize, P)>> = HashMap::new();
            for (i, t) in tris.iter().enumerate() {
                if normal(t)[k] != 0 || (t[0][k] == t[1][k] && t[1][k] == t[2][k]) {
                    continue;
                }
                for j in 0..3 {
                    let (p, q, r) = (t[j], t[(j + 1) % 3], t[(j + 2) % 3]);
                    if p[k] != q[k] && (0..3).any(|a| a != k && p[a] != q[a]) {
                        sliding.entry(if p < q { (p, q) } else { (q, p) }).or_default().push((i, r));
                    }
                }
            }
            for ((p, q), own) in &sliding {
                let fine = own.len() == 2 && {
                    let (a, b) = (cross(sub(*q, *p), sub(own[0].1, *p)), cross(sub(*q, *p), sub(own[1].1, *p)));
                    cross(a, b) == [0, 0, 0] && (0..3).map(|i| a[i].signum() * b[i].signum()).sum::<i128>() < 0
                };
                if !fine {
                    leaning.push((p[k].min(q[k]), p[k].max(q[k])));
                }
            }
        }
        corners.sort();
        corners.dedup();
        leaning.sort();
        let mut over: Vec<(i64, i64)> = vec![];
        for (a, b) in leaning {
            match over.last_mut() {
                Some(l) if a <= l.1 => l.1 = l.1.max(b),
                _ => over.push((a, b)),
            }
        }
        let mut heavy: Vec<(i128, i64)> = weight.into_iter().map(|(c, w)| (w, c)).collect();
        heavy.sort_by(|a, b| b.cmp(a));
        heavy.truncate(most_planes);
        let ends = over.iter().flat_map(|x| [x.0, x.1]);
        let mut fixed: Vec<i64> = heavy.into_iter().map(|x| x.1).chain(ends).chain([low, high]).collect();
        // at a measured point: its own plane and others at 20, 40, 80 .. micrometres; across, the width of the tip
        for (at, axis, half) in near {
            if *axis == k {
                fixed.push(at[k]);
                let mut d = 20;
                while d < cell {
                    fixed.extend([at[k] - d, at[k] + d]);
                    d *= 2;
                }
            } else {
                fixed.extend([at[k] - half, at[k] + half]);
            }
        }
        fixed.retain(|x| low <= *x && *x <= high);
        fixed.sort();
        fixed.dedup();
        let mut p = vec![fixed[0]];
        for w in fixed.windows(2) {
            let gap = w[1] - w[0];
            let parts = (gap + cell - 1) / cell;
            let leans = over.iter().any(|o| o.0 < w[1] && w[0] < o.1);
            let (i, j) = (corners.partition_point(|c| *c <= w[0]), corners.partition_point(|c| *c < w[1]));
            if !leans && ((j - i) as i64) < parts {
                p.extend(&corners[i..j]);
                p.push(w[1]);
                continue;
            }
            for i in 1..=parts {
                p.push(w[0] + gap * i / parts);
            }
        }
        p.dedup();
        out[k] = p;
    }
    out
}

fn normal(t: &Tri) -> [i128; 3] {
    let u = sub(t[1], t[0]);
    let v = sub(t[2], t[0]);
    cross(u, v)
}
fn sub(a: P, b: P) -> [i128; 3] {
    [(a[0] - b[0]) as i128, (a[1] - b[1]) as i128, (a[2] - b[2]) as i128]
}
fn cross(u: [i128; 3], v: [i128; 3]) -> [i128; 3] {
    [u[1] * v[2] - u[2] * v[1], u[2] * v[0] - u[0] * v[2], u[0] * v[1] - u[1] * v[0]]
}

// A direction n, and the least and greatest of n.p over the corners
struct Axis13 {
    n: [i128; 3],
    min: i128,
    max: i128,
}

fn axes_of(t: &Tri) -> Vec<Axis13> {
    let mut ns = vec![];
    // the nine products of an edge and an axis come first: those without z, then the others, then the normal
    let edges = [sub(t[1], t[0]), sub(t[2], t[1]), sub(t[0], t[2])];
    for k in [2usize, 0, 1] {
        for e in &edges {
            let mut a = [0i128; 3];
            a[k] = 1;
            ns.push(cross(*e, a));
        }
    }
    ns.push(normal(t));
    ns.into_iter()
        .map(|n| {
            let v: Vec<i128> = t.iter().map(|p| n[0] * p[0] as i128 + n[1] * p[1] as i128 + n[2] * p[2] as i128).collect();
            Axis13 { n, min: *v.iter().min().unwrap(), max: *v.iter().max().unwrap() }
        })
        .collect()
}

// Whether the direction keeps the elements between two corners and the triangle apart; `from` and `to` tell which ends are open
#[inline(always)]
fn parts(a: &Axis13, low: &[i64; 3], high: &[i64; 3], from: &[bool; 3], to: &[bool; 3]) -> bool {
    let (mut least, mut greatest, mut above, mut below) = (0i128, 0i128, false, false);
    for k in 0..3 {
        if a.n[k] > 0 {
            least += a.n[k] * low[k] as i128;
            greatest += a.n[k] * high[k] as i128;
            above |= from[k];
            below |= to[k];
        } else if a.n[k] < 0 {
            least += a.n[k] * high[k] as i128;
            greatest += a.n[k] * low[k] as i128;
            above |= to[k];
            below |= from[k];
        }
    }
    (if above { a.max <= least } else { a.max < least }) || (if below { greatest <= a.min } else { greatest < a.min })
}

fn descend(g: &Grid, axes: &[Axis13], a: [usize; 3], b: [usize; 3], state: &mut [u8]) {
    let low = [g.low(0, a[0]), g.low(1, a[1]), g.low(2, a[2])];
    let high = [g.high(0, b[0]), g.high(1, b[1]), g.high(2, b[2])];
    let from = [a[0] % 2 == 1, a[1] % 2 == 1, a[2] % 2 == 1];
    let to = [b[0] % 2 == 1, b[1] % 2 == 1, b[2] % 2 == 1];
    if axes.iter().any(|x| parts(x, &low, &high, &from, &to)) {
        return;
    }
    let k = if b[0] - a[0] >= b[1] - a[1] && b[0] - a[0] >= b[2] - a[2] { 0 } else if b[1] - a[1] >= b[2] - a[2] { 1 } else { 2 };
    if a[k] == b[k] {
        state[g.at(a[0], a[1], a[2])] |= 1;
        return;
    }
    let m = (a[k] + b[k]) / 2;
    let mut c = b;
    c[k] = m;
    descend(g, axes, a, c, state);
    let mut c = a;
    c[k] = m + 1;
    descend(g, axes, c, b, state);
}

fn mark_sat(g: &Grid, tris: &[Tri], state: &mut [u8], skip: usize) {
    for t in tris {
        let (mut low, mut high) = ([0; 3], [0; 3]);
        for k in 0..3 {
            let a = t[0][k].min(t[1][k]).min(t[2][k]);
            let b = t[0][k].max(t[1][k]).max(t[2][k]);
            (low[k], high[k]) = g.span(k, a, b);
        }
        descend(g, &axes_of(t)[skip..], low, high, state);
    }
}

// The other way: halve the longest edge until the box round the piece is at most `size` wide (corners doubled at each level, exact)
fn mark_halves(g: &Grid, tris: &[Tri], size: i64, state: &mut [u8]) -> u64 {
    let mut pieces = 0;
    let mut todo: Vec<([[i64; 3]; 3], u32)> = vec![];
    for t in tris {
        todo.push((*t, 0));
        while let Some((p, d)) = todo.pop() {
            let mut wide = 0;
            for k in 0..3 {
                let a = p[0][k].min(p[1][k]).min(p[2][k]);
                let b = p[0][k].max(p[1][k]).max(p[2][k]);
                wide = wide.max(b - a);
            }
            if wide <= size << d || d >= 24 {
                pieces += 1;
                let mut span = [(0, 0); 3];
                for k in 0..3 {
                    let a = p[0][k].min(p[1][k]).min(p[2][k]);
                    let b = p[0][k].max(p[1][k]).max(p[2][k]);
                    // planes are whole: an end between two of them may be rounded outward to a half, since only its element counts
                    let (lo, lo_whole) = (a >> d, (a >> d) << d == a);
                    let (hi, hi_whole) = (b >> d, (b >> d) << d == b);
                    let i = match g.planes[k].binary_search(&lo) {
                        Ok(i) => if lo_whole { 2 * i } else { 2 * i + 1 },
                        Err(i) => 2 * i - 1,
                    };
                    let j = match g.planes[k].binary_search(&hi) {
                        Ok(j) => if hi_whole { 2 * j } else { 2 * j + 1 },
                        Err(j) => 2 * j - 1,
                    };
                    span[k] = (i, j);
                }
                for z in span[2].0..=span[2].1 {
                    for y in span[1].0..=span[1].1 {
                        for x in span[0].0..=span[0].1 {
                            state[g.at(x, y, z)] |= 1;
                        }
                    }
                }
                continue;
            }
            let len = |a: usize, b: usize| (0..3).map(|k| (p[a][k] - p[b][k]).abs()).max().unwrap();
            let (a, b, c) = if len(0, 1) >= len(1, 2) && len(0, 1) >= len(2, 0) { (0, 1, 2) } else if len(1, 2) >= len(2, 0) { (1, 2, 0) } else { (2, 0, 1) };
            let mut m = [0; 3];
            let (mut pa, mut pb, mut pc) = ([0; 3], [0; 3], [0; 3]);
            for k in 0..3 {
                m[k] = p[a][k] + p[b][k];
                pa[k] = 2 * p[a][k];
                pb[k] = 2 * p[b][k];
                pc[k] = 2 * p[c][k];
            }
            todo.push(([pa, m, pc], d + 1));
            todo.push(([m, pb, pc], d + 1));
        }
    }
    pieces
}

// ---------- filling ----------

// bit 2: reached from outside through elements that no triangle meets
fn flood(g: &Grid, state: &mut [u8]) {
    let [nx, ny, nz] = g.n;
    let mut todo: Vec<(u32, u32, u32)> = vec![];
    for z in 0..nz {
        for y in 0..ny {
            let border = z == 0 || z == nz - 1 || y == 0 || y == ny - 1;
            let mut x = 0;
            while x < nx {
                if border || x == 0 || x == nx - 1 {
                    if state[g.at(x, y, z)] & 3 == 0 {
                        todo.push((x as u32, y as u32, z as u32));
                    }
                }
                x += 1;
            }
        }
        // runs keep the stack short
        while let Some((x, y, z)) = todo.pop() {
            let (y, z) = (y as usize, z as usize);
            let row = g.at(0, y, z);
            if state[row + x as usize] & 3 != 0 {
                continue;
            }
            let mut a = x as usize;
            while a > 0 && state[row + a - 1] & 3 == 0 {
                a -= 1;
            }
            let mut b = x as usize;
            while b + 1 < nx && state[row + b + 1] & 3 == 0 {
                b += 1;
            }
            for i in a..=b {
                state[row + i] |= 2;
            }
            let mut side = |yy: usize, zz: usize| {
                let r = g.at(0, yy, zz);
                let mut was = false;
                for i in a..=b {
                    let free = state[r + i] & 3 == 0;
                    if free && !was {
                        todo.push((i as u32, yy as u32, zz as u32));
                    }
                    was = free;
                }
            };
            if y > 0 {
                side(y - 1, z);
            }
            if y + 1 < ny {
                side(y + 1, z);
            }
            if z > 0 {
                side(y, z - 1);
            }
            if z + 1 < nz {
                side(y, z + 1);
            }
        }
    }
}

// bit 4: each point of the element is at most `within` on each axis from a point of a triangle
fn may(g: &Grid, within: i64, state: &mut [u8]) {
    let [nx, ny, nz] = g.n;
    for s in state.iter_mut() {
        if *s & 1 == 1 {
            *s |= 4;
        }
    }
    for k in 0..3 {
        let n = g.n[k];
        // the elements j that serve for i
        let mut window = vec![(0, 0); n];
        for i in 0..n {
            let ok = |j: usize| (g.high(k, i) - g.low(k, j)).max(g.high(k, j) - g.low(k, i)) <= within;
            let (mut a, mut b) = (i, i);
            while a > 0 && ok(a - 1) {
                a -= 1;
            }
            while b + 1 < n && ok(b + 1) {
                b += 1;
            }
            window[i] = (a, b);
        }
        if k == 0 {
            let mut count = vec![0u32; n + 1];
            for row in state.chunks_mut(nx) {
                for i in 0..n {
                    count[i + 1] = count[i] + (row[i] >> 2 & 1) as u32;
                }
                if count[n] == 0 {
                    continue;
                }
                for i in 0..n {
                    let (a, b) = window[i];
                    if count[b + 1] > count[a] {
                        row[i] |= 4;
                    }
                }
            }
            continue;
        }
        // k = 1: within a layer; k = 2: over layers
        for other in 0..g.n[3 - k] {
            let start = |i: usize| if k == 1 { g.at(0, i, other) } else { g.at(0, other, i) };
            let mut count = vec![0u16; nx];
            let (mut from, mut to) = (0usize, 0usize); // rows from..to are counted
            let mut fresh: Vec<Vec<u8>> = vec![]; // rows as they were, from `from` on
            for i in 0..n {
                let (a, b) = window[i];
                while to <= b {
                    let r = start(to);
                    let row: Vec<u8> = state[r..r + nx].iter().map(|s| s >> 2 & 1).collect();
                    for x in 0..nx {
                        count[x] += row[x] as u16;
                    }
                    fresh.push(row);
                    to += 1;
                }
                while from < a {
                    let row = fresh.remove(0);
                    for x in 0..nx {
                        count[x] -= row[x] as u16;
                    }
                    from += 1;
                }
                let r = start(i);
                for x in 0..nx {
                    state[r + x] |= ((count[x] != 0) as u8) << 2;
                }
            }
        }
    }
    let _ = (ny, nz);
}

// ---------- boxes ----------

#[derive(Clone, Copy)]
struct Box3 {
    low: [usize; 3], // plane numbers
    high: [usize; 3],
}

struct Sums {
    n: [usize; 3],
    s: Vec<u32>,
}
impl Sums {
    fn of(n: [usize; 3], f: impl Fn(usize, usize, usize) -> bool) -> Sums {
        let m = [n[0] + 1, n[1] + 1, n[2] + 1];
        let mut s = vec![0u32; m[0] * m[1] * m[2]];
        let at = |x: usize, y: usize, z: usize| (z * m[1] + y) * m[0] + x;
        for z in 0..n[2] {
            for y in 0..n[1] {
                let mut row = 0;
                for x in 0..n[0] {
                    row += f(x, y, z) as u32;
                    s[at(x + 1, y + 1, z + 1)] =
                        row.wrapping_add(s[at(x + 1, y, z + 1)]).wrapping_add(s[at(x + 1, y + 1, z)]).wrapping_sub(s[at(x + 1, y, z)]);
                }
            }
        }
        Sums { n: m, s }
    }
    fn get(&self, x: usize, y: usize, z: usize) -> u32 {
        self.s[(z * self.n[1] + y) * self.n[0] + x]
    }
    // of the cells low..high
    fn sum(&self, l: [usize; 3], h: [usize; 3]) -> u32 {
        let part = |z: usize| {
            self.get(h[0], h[1], z).wrapping_sub(self.get(l[0], h[1], z)).wrapping_sub(self.get(h[0], l[1], z)).wrapping_add(self.get(l[0], l[1], z))
        };
        part(h[2]).wrapping_sub(part(l[2]))
    }
}

const ORDERS: [[usize; 3]; 6] = [[0, 1, 2], [0, 2, 1], [1, 0, 2], [1, 2, 0], [2, 0, 1], [2, 1, 0]];

struct Cover {
    boxes: Vec<Box3>,
    cells: u64,
}

fn cover(g: &Grid, state: &mut [u8], most: usize, shape: u32) -> Option<Cover> {
    let c = [g.planes[0].len() - 1, g.planes[1].len() - 1, g.planes[2].len() - 1];
    let cell = |x: usize, y: usize, z: usize| g.at(2 * x + 1, 2 * y + 1, 2 * z + 1);
    let bad = Sums::of(c, |x, y, z| {
        let s = state[cell(x, y, z)];
        s & 4 == 0 && s & 2 != 0
    });
    let must = |s: u8| s & 2 == 0;
    let mut boxes: Vec<Box3> = vec![];
    let mut cells = 0u64;
    // how many boxes hold a cell
    let mut held: Vec<u16> = vec![0; c[0] * c[1] * c[2]];
    let hat = |x: usize, y: usize, z: usize| (z * c[1] + y) * c[0] + x;
    let grow = |seed: [usize; 3], order: [usize; 3]| -> Box3 {
        let mut b = Box3 { low: seed, high: [seed[0] + 1, seed[1] + 1, seed[2] + 1] };
        for k in order {
            while b.low[k] > 0 {
                let mut l = b.low;
                let mut h = b.high;
                l[k] -= 1;
                h[k] = b.low[k];
                if bad.sum(l, h) != 0 {
                    break;
                }
                b.low[k] -= 1;
            }
            while b.high[k] < c[k] {
                let mut l = b.low;
                let mut h = b.high;
                l[k] = b.high[k];
                h[k] += 1;
                if bad.sum(l, h) != 0 {
                    break;
                }
                b.high[k] += 1;
            }
        }
        b
    };
    // shape 2: all three axes grow in turn, a cell at a time
    let grow_even = |seed: [usize; 3]| -> Box3 {
        let mut b = Box3 { low: seed, high: [seed[0] + 1, seed[1] + 1, seed[2] + 1] };
        loop {
            let mut any = false;
            for k in 0..3 {
                if b.low[k] > 0 {
                    let (mut l, mut h) = (b.low, b.high);
                    l[k] -= 1;
                    h[k] = b.low[k];
                    if bad.sum(l, h) == 0 {
                        b.low[k] -= 1;
                        any = true;
                    }
                }
                if b.high[k] < c[k] {
                    let (mut l, mut h) = (b.low, b.high);
                    l[k] = b.high[k];
                    h[k] += 1;
                    if bad.sum(l, h) == 0 {
                        b.high[k] += 1;
                        any = true;
                    }
                }
            }
            if !any {
                return b;
            }
        }
    };
    let stop = if most == 0 { usize::MAX } else { most * 5 / 4 + 64 };
    let is_must: Vec<bool> = {
        let mut v = vec![false; held.len()];
        for z in 0..c[2] {
            for y in 0..c[1] {
                for x in 0..c[0] {
                    v[hat(x, y, z)] = must(state[cell(x, y, z)]);
                }
            }
        }
        v
    };
    let count_new = |b: &Box3, held: &[u16]| -> u64 {
        let mut n = 0;
        for z in b.low[2]..b.high[2] {
            for y in b.low[1]..b.high[1] {
                let r = hat(0, y, z);
                for x in b.low[0]..b.high[0] {
                    n += (is_must[r + x] && held[r + x] == 0) as u64;
                }
            }
        }
        n
    };
    let musts = Sums::of(c, |x, y, z| is_must[hat(x, y, z)]);
    let best_at = |seed: [usize; 3], held: &[u16]| -> (Box3, u64) {
        let mut best = (Box3 { low: seed, high: [seed[0] + 1, seed[1] + 1, seed[2] + 1] }, 0u64);
        let mut seen: Vec<([usize; 3], [usize; 3])> = vec![];
        let mut all: Vec<Box3> = ORDERS.iter().map(|o| grow(seed, *o)).collect();
        if shape >= 2 {
            all.push(grow_even(seed));
        }
        for b in all {
            if seen.contains(&(b.low, b.high)) {
                continue;
            }
            seen.push((b.low, b.high));
            let n = if shape == 4 { musts.sum(b.low, b.high) as u64 } else { count_new(&b, held) };
            if n > best.1 {
                best = (b, n);
            }
        }
        best
    };
    let put = |b: Box3, held: &mut [u16], boxes: &mut Vec<Box3>| {
        for z in b.low[2]..b.high[2] {
            for y in b.low[1]..b.high[1] {
                let r = hat(0, y, z);
                for x in b.low[0]..b.high[0] {
                    held[r + x] += 1;
                }
            }
        }
        boxes.push(b);
    };
    let total: u64 = is_must.iter().filter(|m| **m).count() as u64;
    cells += total;
    if shape == 3 {
        // the greatest first: seeds from a coarse choice of cells, renewed as they shrink
        let mut heap = std::collections::BinaryHeap::new();
        let every = ((total / 20000) as usize).max(1);
        let mut i = 0;
        for z in 0..c[2] {
            for y in 0..c[1] {
                for x in 0..c[0] {
                    if is_must[hat(x, y, z)] {
                        if i % every == 0 {
                            heap.push((best_at([x, y, z], &held).1, x, y, z));
                        }
                        i += 1;
                    }
                }
            }
        }
        while let Some((n, x, y, z)) = heap.pop() {
            if held[hat(x, y, z)] != 0 {
                continue;
            }
            let (b, m) = best_at([x, y, z], &held);
            if m < n {
                if m > 0 {
                    heap.push((m, x, y, z));
                }
                continue;
            }
            put(b, &mut held, &mut boxes);
            if boxes.len() > stop {
                return None;
            }
        }
    }
    for z in 0..c[2] {
        for y in 0..c[1] {
            for x in 0..c[0] {
                if !is_must[hat(x, y, z)] || held[hat(x, y, z)] != 0 {
                    continue;
                }
                let b = if shape == 0 { grow([x, y, z], ORDERS[0]) } else { best_at([x, y, z], &held).0 };
                put(b, &mut held, &mut boxes);
                if boxes.len() > stop {
                    return None;
                }
            }
        }
    }
    // leave out what others hold, the smallest first, and draw the others in to what they alone hold
    let mut order: Vec<usize> = (0..boxes.len()).collect();
    let vol = |b: &Box3| (0..3).map(|k| (b.high[k] - b.low[k]) as u64).product::<u64>();
    order.sort_by_key(|i| vol(&boxes[*i]));
    let mut keep = vec![true; boxes.len()];
    for i in order {
        let b = boxes[i];
        let (mut l, mut h) = (b.high, b.low);
        for z in b.low[2]..b.high[2] {
            for y in b.low[1]..b.high[1] {
                let r = hat(0, y, z);
                for x in b.low[0]..b.high[0] {
                    if is_must[r + x] && held[r + x] == 1 {
                        let p = [x, y, z];
                        for k in 0..3 {
                            l[k] = l[k].min(p[k]);
                            h[k] = h[k].max(p[k] + 1);
                        }
                    }
                }
            }
        }
        let gone = l[0] >= h[0];
        for z in b.low[2]..b.high[2] {
            for y in b.low[1]..b.high[1] {
                for x in b.low[0]..b.high[0] {
                    let inside = !gone && l[0] <= x && x < h[0] && l[1] <= y && y < h[1] && l[2] <= z && z < h[2];
                    if !inside {
                        held[hat(x, y, z)] -= 1;
                    }
                }
            }
        }
        if gone {
            keep[i] = false;
        } else {
            boxes[i] = Box3 { low: l, high: h };
        }
    }
    let mut it = keep.iter();
    boxes.retain(|_| *it.next().unwrap());
    // flat elements that no block of a cell holds
    for b in &boxes {
        paint(g, state, b);
    }
    for flats in 1..=3 {
        for z in 0..g.n[2] {
            for y in 0..g.n[1] {
                for x in 0..g.n[0] {
                    let i = g.at(x, y, z);
                    let s = state[i];
                    // what is enclosed and no triangle meets lies between cells that are held, or is no matter
                    if s & 1 == 0 || s & 8 != 0 || (x % 2 == 0) as usize + (y % 2 == 0) as usize + (z % 2 == 0) as usize != flats {
                        continue;
                    }
                    cells += 1;
                    let e = [x, y, z];
                    let (mut l, mut h) = (e, e); // elements, inclusive
                    for k in 0..3 {
                        if e[k] % 2 == 0 {
                            continue;
                        }
                        for up in [false, true] {
                            loop {
                                let next = if up { h[k] + 2 } else { l[k].wrapping_sub(2) };
                                if next >= g.n[k] {
                                    break;
                                }
                                let (mut a, mut b) = (l, h);
                                a[k] = next;
                                b[k] = next;
                                let mut fine = true;
                                'all: for w in a[2]..=b[2] {
                                    for v in a[1]..=b[1] {
                                        for u in a[0]..=b[0] {
                                            // elements of the seed's kind decide; those between them are in their closure
                                            if (u + x) % 2 == 0 && (v + y) % 2 == 0 && (w + z) % 2 == 0 {
                                                let s = state[g.at(u, v, w)];
                                                if s & 4 == 0 && s & 2 != 0 {
                                                    fine = false;
                                                    break 'all;
                                                }
                                            }
                                        }
                                    }
                                }
                                if !fine {
                                    break;
                                }
                                if up { h[k] = next } else { l[k] = next }
                            }
                        }
                    }
                    let mut b = Box3 { low: [0; 3], high: [0; 3] };
                    for k in 0..3 {
                        b.low[k] = l[k] / 2;
                        b.high[k] = (h[k] + 1) / 2;
                    }
                    paint(g, state, &b);
                    boxes.push(b);
                    if boxes.len() > stop {
                        return None;
                    }
                }
            }
        }
    }
    // the certificate: each element that a triangle meets lies in a box
    for s in state.iter() {
        assert!(s & 1 == 0 || s & 8 != 0);
    }
    if most != 0 && boxes.len() > most {
        return None;
    }
    Some(Cover { boxes, cells })
}

fn paint(g: &Grid, state: &mut [u8], b: &Box3) {
    for z in 2 * b.low[2]..=2 * b.high[2] {
        for y in 2 * b.low[1]..=2 * b.high[1] {
            let r = g.at(0, y, z);
            for x in 2 * b.low[0]..=2 * b.high[0] {
                state[r + x] |= 8;
            }
        }
    }
}

// ---------- the command ----------

fn mm(x: i64) -> String {
    format!("{}{}.{:03}", if x < 0 { "-" } else { "" }, x.abs() / 1000, x.abs() % 1000)
}
fn micrometres(word: &str) -> i64 {
    of_decimal(word, 1000).unwrap_or_else(|| die("a length wants millimetres, as 0.5"))
}

struct Tried {
    g: Grid,
    cover: Cover,
    state: Vec<u8>,
}

struct Opts {
    align: bool,
    divide: i64,
    shape: u32,
    mark: String,
    talk: bool,
    most_elements: u64,
    near: Vec<(P, usize, i64)>,
    plain: bool,
}

fn attempt(tris: &[Tri], within: i64, most: usize, o: &Opts) -> Result<Tried, String> {
    match attempt_with(tris, within, most, o, o.align) {
        Err(why) if o.align && why == "too many" => attempt_with(tris, within, most, o, false),
        other => other,
    }
}

fn attempt_with(tris: &[Tri], within: i64, most: usize, o: &Opts, align: bool) -> Result<Tried, String> {
    let cell = (within / o.divide).max(1);
    // more planes than a grid holds are chosen by area: what is left out is approximated as all else
    let mut most_planes = 1 << 20;
    let g = loop {
        let planes = planes_of(tris, cell, align, most_planes, &o.near);
        let n = [2 * planes[0].len() - 1, 2 * planes[1].len() - 1, 2 * planes[2].len() - 1];
        let total = n[0] as u64 * n[1] as u64 * n[2] as u64;
        if total <= o.most_elements {
            break Grid { planes, n };
        }
        if most_planes == 0 {
            return Err(format!("{total} elements"));
        }
        most_planes = if most_planes > 256 { 256 } else { most_planes / 2 };
    };
    let total = g.n[0] * g.n[1] * g.n[2];
    let mut state = vec![0u8; total];
    let t0 = Instant::now();
    let mut pieces = 0;
    match o.mark.as_str() {
        "sat" => mark_sat(&g, tris, &mut state, 0),
        "plane" => mark_sat(&g, tris, &mut state, 9),
        m => {
            let q: i64 = m.parse().unwrap();
            pieces = mark_halves(&g, tris, (cell / q).max(1), &mut state)
        }
    }
    let t1 = Instant::now();
    flood(&g, &mut state);
    let t2 = Instant::now();
    may(&g, if o.plain { 0 } else { within }, &mut state);
    let t3 = Instant::now();
    let marked = state.iter().filter(|s| **s & 1 == 1).count();
    let got = cover(&g, &mut state, most, o.shape);
    let t4 = Instant::now();
    if o.talk {
        eprintln!(
            "  within {} cell {} planes {} {} {} elements {total} marked {marked} pieces {pieces} mark {:.3} fill {:.3} may {:.3} boxes {:.3} blocks {}",
            within,
            cell,
            g.planes[0].len(),
            g.planes[1].len(),
            g.planes[2].len(),
            (t1 - t0).as_secs_f64(),
            (t2 - t1).as_secs_f64(),
            (t3 - t2).as_secs_f64(),
            (t4 - t3).as_secs_f64(),
            got.as_ref().map_or("too many".to_string(), |c| c.boxes.len().to_string())
        );
    }
    match got {
        Some(cover) => Ok(Tried { g, cover, state }),
        None => Err("too many".into()),
    }
}

fn main() {
    let args: Vec<String> = std::env::args().skip(1).collect();
    let mut file = None;
    let (mut scale, mut at, mut within, mut most, mut into, mut name) = (1000i64, [0i64; 3], 0i64, 4096usize, None, None);
    let mut turns: Vec<(usize, i64)> = vec![];
    let mut o = Opts { align: true, divide: 1, shape: 2, mark: "sat".into(), talk: false, most_elements: 1 << 26, near: vec![], plain: true };
    let mut quiet_out = false;
    let mut i = 0;
    let mut shown = String::from("vcm blocks");
    while i < args.len() {
        let a = args[i].as_str();
        let value = |i: &mut usize| -> String {
            *i += 1;
            args.get(*i).cloned().unwrap_or_else(|| die(&format!("{a} wants a value")))
        };
        let before = i;
        match a {
            "--unit" => match value(&mut i).as_str() {
                "mm" => scale = 1000,
                "inch" => scale = 25400,
                "m" => scale = 1_000_000,
                _ => die("--unit is mm, inch or m"),
            },
            "--at" => {
                let v = value(&mut i);
                let p: Vec<i64> = v.split(',').map(micrometres).collect();
                if p.len() != 3 {
                    die("--at wants x,y,z in millimetres")
                }
                at = [p[0], p[1], p[2]]
            }
            "--turn" => {
                for w in value(&mut i).split(',') {
                    let k = match &w[..1] {
                        "x" | "X" => 0,
                        "y" | "Y" => 1,
                        "z" | "Z" => 2,
                        _ => die("--turn wants as x90 or z-90,x180"),
                    };
                    let q: i64 = w[1..].parse().unwrap_or(1);
                    if q % 90 != 0 {
                        die("--turn takes quarter turns")
                    }
                    turns.push((k, (q / 90).rem_euclid(4)));
                }
            }
            "--within" => within = micrometres(&value(&mut i)),
            "--most" => most = value(&mut i).parse().unwrap_or_else(|_| die("--most wants 1 to 4096")),
            "--into" => into = Some(value(&mut i)),
            "--name" => name = Some(value(&mut i)),
            // choices that vcm doesn't have
            "--no-align" => o.align = false,
            "--divide" => o.divide = value(&mut i).parse().unwrap(),
            "--shape" => o.shape = value(&mut i).parse().unwrap(),
            "--mark" => o.mark = value(&mut i),
            "--near" => {
                let v = value(&mut i);
                let p: Vec<&str> = v.split(',').collect();
                o.near.push(([micrometres(p[0]), micrometres(p[1]), micrometres(p[2])], p[3].parse().unwrap(), micrometres(p[4]).max(1)))
            }
            "--wide" => o.plain = false,
            "--talk" => o.talk = true,
            "--none" => quiet_out = true,
            "--elements" => o.most_elements = value(&mut i).parse().unwrap(),
            _ => file = Some(a.to_string()),
        }
        if !matches!(a, "--talk" | "--none" | "--wide") {
            for w in &args[before..=i] {
                let w = if Some(w) == file.as_ref() { w.rsplit('/').next().unwrap() } else { w };
                shown.push(' ');
                shown.push_str(w);
            }
        }
        i += 1;
    }
    let file = file.unwrap_or_else(|| die("vcm blocks MODEL.stl [--unit mm|inch] [--turn x90,..] [--at x,y,z] [--within MM] [--most N] [--into PART] [--name NAME]"));
    let bytes = std::fs::read(&file).unwrap_or_else(|_| die(&format!("cannot read {file}")));
    let start = Instant::now();
    let mesh = read_mesh(&bytes, scale);
    drop(bytes);
    let mut tris = mesh.tris;
    for t in tris.iter_mut() {
        for p in t.iter_mut() {
            for (k, q) in &turns {
                let (a, b) = ((k + 1) % 3, (k + 2) % 3);
                for _ in 0..*q {
                    let (u, v) = (p[a], p[b]);
                    p[a] = -v;
                    p[b] = u;
                }
            }
            for k in 0..3 {
                p[k] += at[k];
                if p[k].abs() > NEAR {
                    die("M05 OutOfRange")
                }
            }
        }
    }
    let read = start.elapsed().as_secs_f64();
    // what is told of the mesh
    let mut flat = 0;
    let mut against = 0;
    let mut six = 0i128;
    let mut edges: HashMap<(P, P), i32> = HashMap::with_capacity(tris.len() * 3 / 2);
    for (t, n) in tris.iter().zip(&mesh.normals) {
        let c = normal(t);
        if c == [0, 0, 0] {
            flat += 1;
        } else if turns.is_empty() {
            let d: f64 = (0..3).map(|k| c[k] as f64 * n[k] as f64).sum();
            if d < 0.0 {
                against += 1;
            }
        }
        let o = tris[0][0];
        let (a, b, d) = (sub(t[0], o), sub(t[1], o), sub(t[2], o));
        let x = cross(b, d);
        six += a[0] * x[0] + a[1] * x[1] + a[2] * x[2];
        for i in 0..3 {
            let (p, q) = (t[i], t[(i + 1) % 3]);
            if p == q {
                continue;
            }
            let (key, w) = if p < q { ((p, q), 1) } else { ((q, p), -1) };
            let e = edges.entry(key).or_default();
            // sum of directions in the low half, count above
            *e += w + (1 << 8);
        }
    }
    let (mut open, mut odd) = (0, 0);
    for v in edges.values() {
        let count = (*v + 128) >> 8;
        let sum = *v - (count << 8);
        if count % 2 == 1 {
            open += 1;
        } else if sum != 0 {
            odd += 1;
        }
    }
    let edge_count = edges.len();
    drop(edges);
    let mut low = [i64::MAX; 3];
    let mut high = [i64::MIN; 3];
    for p in tris.iter().flatten() {
        for k in 0..3 {
            low[k] = low[k].min(p[k]);
            high[k] = high[k].max(p[k]);
        }
    }
    let told = start.elapsed().as_secs_f64();
    // no triangle leans: the blocks are the model
    let exact = o.align && open == 0 && tris.iter().all(|t| normal(t).iter().filter(|x| **x != 0).count() <= 1);
    let size = (0..3).map(|k| high[k] - low[k]).max().unwrap();
    // the blocks of the file that they go into count
    let base = into.as_ref().map(|f| std::fs::read_to_string(f).unwrap_or_else(|_| die(&format!("cannot read {f}"))));
    let base_blocks = base.as_ref().map_or(0, |t| t.lines().filter(|l| l.trim() == "[[block]]").count());
    let most = most.min(4096 - base_blocks.min(4096));
    let mut tries = 0;
    let got = if within > 0 {
        tries = 1;
        match attempt(&tris, within, most, &o) {
            Ok(t) => t,
            Err(e) if e.ends_with("elements") => die(&format!("M09 TooFine within {}", mm(within))),
            Err(_) => die(&format!("M08 TooManyBlocks within {}", mm(within))),
        }
    } else {
        // round lengths from coarse to fine, as long as blocks and grid suffice
        let mut best = None;
        let mut worst = 0;
        let mut series: Vec<i64> = vec![];
        for ten in [100_000, 10_000, 1000, 100] {
            series.extend([5 * ten, 2 * ten, ten]);
        }
        for e in series.into_iter().filter(|e| *e <= size.max(100) && *e >= 100) {
            tries += 1;
            match attempt(&tris, e, most, &o) {
                Ok(t) => {
                    let last = exact && e < size / 4;
                    best = Some(t);
                    within = e;
                    if last || exact {
                        break;
                    }
                }
                Err(why) => {
                    worst = e;
                    if best.is_some() || why.ends_with("elements") {
                        break;
                    }
                }
            }
        }
        let _ = worst;
        if best.is_none() {
            die(&format!("M08 TooManyBlocks more than {most} at each length"));
        }
        best.unwrap()
    };
    let g = &got.g;
    let boxes = &got.cover.boxes;
    let done = start.elapsed().as_secs_f64();
    // the volume of all blocks together
    let c = [g.planes[0].len() - 1, g.planes[1].len() - 1, g.planes[2].len() - 1];
    let mut volume = 0i128;
    for z in 0..c[2] {
        for y in 0..c[1] {
            for x in 0..c[0] {
                if got.state[g.at(2 * x + 1, 2 * y + 1, 2 * z + 1)] & 8 != 0 {
                    volume += (g.planes[0][x + 1] - g.planes[0][x]) as i128 * (g.planes[1][y + 1] - g.planes[1][y]) as i128 * (g.planes[2][z + 1] - g.planes[2][z]) as i128;
                }
            }
        }
    }
    let enclosed = got.state.iter().any(|s| s & 3 == 0);
    let stem = file.rsplit('/').next().unwrap().trim_end_matches(".stl").to_string();
    let name = name.unwrap_or(stem);
    let mut out = String::new();
    match &base {
        Some(text) => {
            out.push_str(text);
            if !text.ends_with('\n') {
                out.push('\n');
            }
        }
        None => {
            let far = 100_000;
            out.push_str(&format!("low = [{}, {}, {}]\n", low[0] - far, low[1] - far, low[2]));
            out.push_str(&format!("high = [{}, {}, {}]\n", high[0] + far, high[1] + far, high[2] + 2 * far));
            out.push_str(&format!("home = [{}, {}, {}]\n", low[0], low[1], high[2] + far));
        }
    }
    out.push_str(&format!("\n# {shown}\n"));
    out.push_str(&format!(
        "# {} blocks cover {} triangles, {} x {} x {} mm from {} {} {}; {}\n",
        boxes.len(),
        tris.len(),
        mm(high[0] - low[0]),
        mm(high[1] - low[1]),
        mm(high[2] - low[2]),
        mm(low[0]),
        mm(low[1]),
        mm(low[2]),
        if exact { "they are exact".to_string() } else { format!("within {} mm", mm(within)) }
    ));
    for b in boxes {
        let l: Vec<i64> = (0..3).map(|k| g.planes[k][b.low[k]]).collect();
        let h: Vec<i64> = (0..3).map(|k| g.planes[k][b.high[k]]).collect();
        out.push_str(&format!("[[block]]\nname = \"{name}\"\nlow = [{}, {}, {}]\nhigh = [{}, {}, {}]\n", l[0], l[1], l[2], h[0], h[1], h[2]));
    }
    if !quiet_out {
        std::io::stdout().write_all(out.as_bytes()).unwrap();
    }
    eprintln!("model {} triangles, {} x {} x {} mm, from {} {} {} to {} {} {}", tris.len(), mm(high[0] - low[0]), mm(high[1] - low[1]), mm(high[2] - low[2]), mm(low[0]), mm(low[1]), mm(low[2]), mm(high[0]), mm(high[1]), mm(high[2]));
    eprintln!("blocks {}, {}{}", boxes.len(), if exact { "exact".to_string() } else { format!("within {} mm", mm(within)) }, if base_blocks > 0 { format!(", behind {base_blocks} of the part") } else { String::new() });
    if open == 0 && six != 0 {
        let v = six.abs() as f64 / 6e9;
        let b = volume as f64 / 1e9;
        eprintln!("volume {:.0} mm3 of the model, {:.0} mm3 of the blocks", v, b);
    }
    if open > 0 {
        eprintln!("notice {open} edges belong to an odd number of triangles: the model is open{}", if enclosed { "" } else { ", and nothing inside was filled" });
    }
    if odd > 0 {
        eprintln!("notice {odd} edges are gone along twice in one direction: some triangles are turned over");
    }
    if open == 0 && six < 0 {
        eprintln!("notice the triangles turn inward");
    }
    if flat > 0 {
        eprintln!("notice {flat} triangles have no area");
    }
    if against > 0 {
        eprintln!("notice {against} triangles are turned against their normals");
    }
    if o.talk {
        eprintln!("  {} read {read:.3} told {told:.3} done {done:.3} s, tries {tries}, edges {edge_count}, cells {}, hwm {}", mesh.kind, got.cover.cells, hwm());
    }
}

fn hwm() -> String {
    std::fs::read_to_string("/proc/self/status").ok().and_then(|s| s.lines().find(|l| l.starts_with("VmHWM")).map(|l| l.split_whitespace().nth(1).unwrap().to_string())).unwrap_or_default()
}
