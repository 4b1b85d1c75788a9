//! The pictures' structure: every tag is closed, and there is one of each thing that the plan or the day has.
mod common;
use std::fs;

/// The names of all elements, in their order, of a text in which tags are balanced and attributes are quoted.
fn elements(svg: &str) -> Vec<String> {
    let (mut open, mut all, mut rest) = (Vec::new(), Vec::new(), svg);
    while let Some(start) = rest.find('<') {
        assert!(!rest[..start].contains('>'), "a stray >");
        let end = start + rest[start..].find('>').expect("a tag that ends");
        let tag = &rest[start + 1..end];
        rest = &rest[end + 1..];
        if let Some(name) = tag.strip_prefix('/') {
            assert_eq!(open.pop().as_deref(), Some(name));
            continue;
        }
        assert_eq!(tag.matches('"').count() % 2, 0, "{tag}");
        let name = tag.split([' ', '/']).next().unwrap().to_string();
        if !tag.ends_with('/') {
            open.push(name.clone());
        }
        all.push(name);
    }
    assert!(open.is_empty() && rest.trim().is_empty(), "{open:?} {rest:?}");
    assert_eq!(all[0], "svg");
    all
}

fn count(svg: &str, what: &str) -> usize {
    svg.matches(what).count()
}

/// All numbers of an attribute.
fn numbers(svg: &str, attribute: &str) -> Vec<f64> {
    let mark = format!(" {attribute}=\"");
    svg.split(&mark).skip(1).map(|rest| rest.split('"').next().unwrap().parse().unwrap()).collect()
}

/// Everything lies on the paper.
fn inside(svg: &str) {
    let (width, height) = (numbers(svg, "width")[0], numbers(svg, "height")[0]);
    for (attribute, most) in
        [("x", width), ("x1", width), ("x2", width), ("cx", width), ("y", height), ("y1", height), ("y2", height), ("cy", height)]
    {
        assert!(numbers(svg, attribute).iter().all(|&number| (0.0..=most).contains(&number)), "{attribute}");
    }
    for points in svg.split(" points=\"").skip(1) {
        for point in points.split('"').next().unwrap().split(' ') {
            let (x, y) = point.split_once(',').unwrap();
            assert!((0.0..=width).contains(&x.parse().unwrap()) && (0.0..=height).contains(&y.parse().unwrap()), "{point}");
        }
    }
}

#[test]
fn what_is_drawn() {
    for (grid, seams, flags, temperatures) in [
        ("12x7", 84, "--sweeps 60 --temperatures 5", 5),
        ("1x1", 1, "--sweeps 0 --temperatures 1", 1),
        ("64x64", 4096, "--sweeps 1 --temperatures 3 --replicas 2", 3),
        ("1x40", 40, "--sweeps 900 --temperatures 32 --replicas 2", 32),
    ] {
        let folder = common::folder(&format!("pictures-{grid}"));
        fs::write(folder.join("panel.txt"), common::list(grid, [1, 2, 3, 5], 40)).unwrap();
        fs::write(folder.join("pins.txt"), "1 A\n").unwrap();
        common::good(&folder, &format!("--grid {grid} --list panel.txt --pins pins.txt --quiet {flags} --out plan"));
        let [text, plan, day, json] = common::files(&folder.join("plan"));

        elements(&plan);
        inside(&plan);
        let faces = ["face-a", "face-b"].map(|class| count(&plan, &format!("class=\"{class}\"")));
        assert_eq!(faces, ["A", "B"].map(|face| text.lines().filter(|line| line.split(' ').nth(3) == Some(face)).count()));
        assert_eq!(faces[0] + faces[1], seams, "one square for each seam");
        assert_eq!(count(&plan, "class=\"pinned\""), 1);
        let worst = text.lines().skip_while(|line| *line != "seam seam adds").skip(1).take_while(|line| !line.is_empty()).count();
        assert_eq!(count(&plan, "class=\"worst\""), worst);
        let checksum = weld_plan::sha256::hex(&fs::read(folder.join("panel.txt")).unwrap());
        assert!(plan.contains(&checksum) && text.contains(&checksum) && json.contains(&checksum));

        elements(&day);
        inside(&day);
        assert_eq!(count(&day, "class=\"temperature\""), temperatures);
        assert_eq!(count(&day, "class=\"best\""), 1);
        assert_eq!(count(&day, "class=\"rate\""), temperatures - 1);
        // the course is bounded, however long the day was
        let points = day.split("class=\"temperature\" points=\"").nth(1).unwrap().split('"').next().unwrap().split(' ').count();
        assert!(points <= 401, "{points}");
        brackets(&json);
    }
}

/// Brackets and quotes of a JSON text close in their order; no string here has an escape.
fn brackets(json: &str) {
    let (mut open, mut quoted) = (Vec::new(), false);
    for letter in json.chars() {
        match letter {
            '"' => quoted = !quoted,
            _ if quoted => assert!(letter != '\\' && letter >= ' '),
            '{' | '[' => open.push(letter),
            '}' => assert_eq!(open.pop(), Some('{')),
            ']' => assert_eq!(open.pop(), Some('[')),
            _ => assert!(letter.is_ascii_digit() || " \n,:.-".contains(letter), "{letter:?}"),
        }
    }
    assert!(open.is_empty() && !quoted);
}
