"""Wrong versions of what the oracle asks: one edit each, such as a port could make.

An edit is a short piece of the published text, or of the oracle's own text after documents 01 and 02, and
what stands in its place. `groups` are those in which the edit has to be noticed.
"""
from collections import namedtuple

Version = namedtuple("Version", "name file edit groups")

MATRIX = "math_functions/matrix.rs"
SCALAR = "math_functions/scalar.rs"
QUAT = "math_functions/quat.rs"
VECTOR = "math_functions/vector.rs"
REVOLUTE = "joint/revolute.rs"
SPHERICAL = "joint/spherical.rs"
WELD = "joint/weld.rs"

SOLVES = ("stages", "direct", "lists")
ALL = ("leaves", *SOLVES)
BY_VALUE = (*SOLVES, "values")
EACH = (*ALL, "values")
PREPARES = ("stages", "values")
LEAF, STAGE, VALUES = ("leaves",), ("stages",), ("values",)
MARKED_SOLVES = ("stages", "direct", "values")  # a run of a list answers no marks


class Missed(Exception):
    """The text is not where the edit expects it."""


def index(text, piece, start=0):
    at = text.find(piece, start)
    if at < 0:
        raise Missed(piece)
    return at


def put(behind, old, new):
    """Puts `new` for the first `old` behind a piece of text."""
    def edit(text):
        at = index(text, old, index(text, behind))
        return text[:at] + new + text[at + len(old):]
    return edit


def exchange(behind, first, second, end):
    """Exchanges the text from `first` up to `second` with that from there up to `end`."""
    def edit(text):
        a = index(text, first, index(text, behind))
        b = index(text, second, a)
        c = index(text, end, b)
        return text[:a] + text[b:c] + text[a:b] + text[c:]
    return edit


def both(*edits):
    def edit(text):
        for one in edits:
            text = one(text)
        return text
    return edit


THRESHOLD = ("> 1000.0 *", ">= 1000.0 *")
NAN_GAP = ("if c > 0.0", "if !(c <= 0.0)")
ZERO_GAP = ("if c > 0.0", "if c >= 0.0")
FIXED = ("< 1000.0 *", "<= 1000.0 *")
STORE = ("    if state_a.flags", "    if state_b.flags", "}\n\n")
LAST_STORE = ("    if state_a.flags", "    if state_b.flags", "}\n")
R, S, W = ("pub fn solve_%s_joint" % kind for kind in ("revolute", "spherical", "weld"))
SUBTRACTED = "sub(sub(add(v_b, cross(w_b, r_b)), v_a), cross(w_a, r_a))"
GROUPED = "sub(add(v_b, cross(w_b, r_b)), add(v_a, cross(w_a, r_a)))"
LIMITS = (
    ("revolute, lower limit", REVOLUTE, "let c = angle - joint.lower_angle", "sub(w_b, w_a)", "sub(w_a, w_b)"),
    ("revolute, upper limit", REVOLUTE, "let c = joint.upper_angle - angle", "sub(w_a, w_b)", "sub(w_b, w_a)"),
    ("spherical, lower twist", SPHERICAL, "let c = twist_angle", "sub(w_b, w_a)", "sub(w_a, w_b)"),
    ("spherical, upper twist", SPHERICAL, "- twist_angle", "sub(w_a, w_b)", "sub(w_b, w_a)"),
    ("spherical, cone", SPHERICAL, "let c = joint.cone_angle", "sub(w_a, w_b)", "sub(w_b, w_a)"),
)
SPRING, MOTOR = "    // Solve spring", "    if joint.enable_motor &&"
LOWER, UPPER = "        // Lower limit", "        // Upper limit"
POINT = "    // Solve point-to-point"
ROWS = (
    ("revolute, motor before spring", REVOLUTE, R, SPRING, MOTOR, "    if joint.enable_limit &&"),
    ("revolute, limits before motor", REVOLUTE, R, MOTOR, "    if joint.enable_limit &&", "    // Collinearity"),
    ("revolute, upper before lower", REVOLUTE, R, LOWER, UPPER, "    }\n\n    // Collinearity"),
    ("revolute, perpendicular before limits", REVOLUTE, R, "    if joint.enable_limit &&", "    // Collinearity", POINT),
    ("revolute, point before perpendicular", REVOLUTE, R, "    // Collinearity", POINT, "    if state_a.flags"),
    ("spherical, motor before spring", SPHERICAL, S, SPRING, MOTOR, "    if joint.enable_twist_limit &&"),
    ("spherical, twist before motor", SPHERICAL, S, MOTOR, "    if joint.enable_twist_limit &&",
     "    if joint.enable_cone_limit &&"),
    ("spherical, upper before lower", SPHERICAL, S, LOWER, UPPER, "    }\n\n    if joint.enable_cone_limit &&"),
    ("spherical, cone before twist", SPHERICAL, S, "    if joint.enable_twist_limit &&",
     "    if joint.enable_cone_limit &&", POINT),
    ("spherical, point before cone", SPHERICAL, S, "    if joint.enable_cone_limit &&", POINT, "    if state_a.flags"),
    ("weld, point before angular", WELD, W, "    // angular constraint", "    // linear constraint",
     "    if state_a.flags"),
)


ANGLES = "fn worked_angles"
KEPT_TWIST, KEPT_SWING = "angles.twist = joint.angles.twist; ", "angles.swing = joint.angles.swing; "
TWIST, SWING = "get_twist_angle(rel_q)", "get_swing_angle(rel_q)"
RELATIVE = "inv_mul_quat(quat_a, quat_b)"
FLIPPED_AT_ZERO = ("{ let flip = crate::math_functions::dot_quat(quat_a, quat_b) <= 0.0; "
                   "inv_mul_quat(quat_a, if flip { crate::math_functions::negate_quat(quat_b) } else { quat_b }) }")
# Name, how the limit's angle is written, how it is compared, with which angle.
STOPS = (
    ("revolute, lower", "j.lower_angle", ">=", "twist"),
    ("revolute, upper", "j.upper_angle", "<=", "twist"),
    ("spherical, lower", "j.lower_twist_angle", ">=", "twist"),
    ("spherical, upper", "j.upper_twist_angle", "<=", "twist"),
    ("spherical, cone", "j.cone_angle", "<=", "swing"),
)


def limit_versions(title, pair, groups):
    for name, file, behind, _, _ in LIMITS:
        yield Version(f"{name}: {title}", file, put(behind, *pair), groups)


def store_versions():
    for kind, file in (("revolute", REVOLUTE), ("spherical", SPHERICAL), ("weld", WELD)):
        warm, solve = (f"pub fn {stage}_{kind}_joint" for stage in ("warm_start", "solve"))
        yield Version(f"{kind}: B stored before A", file,
                      both(exchange(warm, *STORE), exchange(solve, *LAST_STORE)), SOLVES)


def exchanged_versions():
    for first, second in (("cx.y", "cy.x"), ("cx.z", "cz.x"), ("cy.z", "cz.y")):
        exchanged = f"{{ let mut m = transpose(out); (m.{first}, m.{second}) = (m.{second}, m.{first}); m }}"
        yield Version(f"invert_matrix: {first} and {second} exchanged", MATRIX,
                      put("pub fn invert_matrix", "transpose(out)", exchanged), ("leaves", *PREPARES))


def after(behind, piece, more):
    """Puts `more` after the first `piece` behind a piece of text."""
    return put(behind, piece, piece + more)


def kept_versions():
    """Angles that should be none, and are those of before; and some that should be kept, and are not."""
    off = "a limit that is off keeps its angle"
    yield Version(f"angles: revolute, {off}", "stages.rs",
                  put(ANGLES, "if j.enable_limit", KEPT_TWIST + "if j.enable_limit"), BY_VALUE)
    yield Version(f"angles: spherical, twist, {off}", "stages.rs",
                  put(ANGLES, "if j.enable_twist_limit", KEPT_TWIST + "if j.enable_twist_limit"), BY_VALUE)
    yield Version(f"angles: spherical, cone, {off}", "stages.rs",
                  put(ANGLES, "if j.enable_cone_limit", KEPT_SWING + "if j.enable_cone_limit"), BY_VALUE)
    yield Version("angles: a revolute solve keeps the swing", "stages.rs",
                  after(ANGLES, "JointUnion::Revolute(j) => {", KEPT_SWING), BY_VALUE)
    yield Version("angles: fixed rotation keeps them", "stages.rs",
                  put(ANGLES, "return angles", "return joint.angles"), BY_VALUE)
    yield Version("angles: a weld's solve keeps them", "stages.rs",
                  put(ANGLES, "_ => {}", "_ => angles = joint.angles"), BY_VALUE)
    yield Version("angles: prepare keeps them", "stages.rs",
                  put("pub fn prepare", "joint.angles = NO_ANGLES;", ""), PREPARES)
    yield Version("angles: a warm start clears them", "stages.rs",
                  after("pub fn warm_start", "warm_start(joint, states);", "joint.angles = NO_ANGLES;"), BY_VALUE)
    cleared = "joint.angles = crate::records::NO_ANGLES;"
    yield Version("angles: a refused direct call clears them", "direct.rs",
                  put("fn answer(", "} else {", "} else { let mut joint = joint; " + cleared), ("direct",))
    yield Version("angles: a refused stage by value clears them", "values.rs",
                  after("fn answer(", "let is_refused = kind_of(&joint) != Some(called);",
                        "if is_refused { " + cleared + " }"), VALUES)
    yield Version("angles: a refused list clears them", "plain_run.rs",
                  after("fn run_whole", "if number != 0 {",
                        "for joint in &mut self.joints { joint.angles = NO_ANGLES; }"), ("lists",))


def angle_versions():
    """Angles of other rows, and of other rotations."""
    for name, switch in (("revolute", "j.enable_limit"), ("spherical, twist", "j.enable_twist_limit"),
                         ("spherical, cone", "j.enable_cone_limit")):
        yield Version(f"angles: {name}, stored though its limit is off", "stages.rs",
                      put(ANGLES, f"if {switch}", f"if {switch} || true"), BY_VALUE)
    yield Version("angles: stored though rotation is fixed", "stages.rs",
                  put(ANGLES, "if joint.fixed_rotation", "if false"), BY_VALUE)
    yield Version("angles: twist by the cone's switch", "stages.rs",
                  put(ANGLES, "if j.enable_twist_limit", "if j.enable_cone_limit"), BY_VALUE)
    yield Version("angles: cone by the twist's switch", "stages.rs",
                  put(ANGLES, "if j.enable_cone_limit", "if j.enable_twist_limit"), BY_VALUE)
    spherical = "JointUnion::Spherical(j)"
    yield Version("angles: the swing stored as the twist", "stages.rs", put(spherical, TWIST, SWING), BY_VALUE)
    yield Version("angles: the twist stored as the swing", "stages.rs", put(spherical, SWING, TWIST), BY_VALUE)
    yield Version("angles: spherical, frames exchanged", "stages.rs",
                  put(ANGLES, RELATIVE, "inv_mul_quat(quat_b, quat_a)"), BY_VALUE)
    yield Version("angles: revolute, frames exchanged", "scene.rs",
                  put("pub fn flipped", "inv_mul_quat(a, b)", "inv_mul_quat(b, a)"), BY_VALUE)
    yield Version("angles: the bodies' turning left out", "scene.rs",
                  put("pub fn rotations", "mul_quat(turned, frame.q)", "{ let _ = turned; frame.q }"), BY_VALUE)
    # A flip below zero, or none, is not to be seen in an angle: the product that decides it is the s of the rotation, bit for
    # bit, and get_twist_angle takes a rotation with an s below zero as its negative. At zero it is.
    yield Version("angles: revolute, quaternion flipped at zero", "scene.rs",
                  put("pub fn flipped", "< 0.0", "<= 0.0"), STAGE)
    yield Version("angles: spherical, quaternion flipped at zero", "stages.rs", put(ANGLES, RELATIVE, FLIPPED_AT_ZERO), STAGE)


def stop_versions():
    """The stop code with another sense of arrived."""
    for name, limit, sign, angle in STOPS:
        right, other = f"{limit} {sign} {angle}", "swing" if angle == "twist" else "twist"
        for title, wrong in (
            ("not arrived where just at it", f"{limit} {sign[0]} {angle}"),
            ("NaN counts as arrived", f"!({limit} {'<' if sign == '>=' else '>'} {angle})"),
            ("arrived on the other side", f"{limit} {'<=' if sign == '>=' else '>='} {angle}"),
            (f"{other} for {angle}", f"{limit} {sign} {other}"),
            ("arrival left out", "true"),
        ):
            yield Version(f"stop code: {name}, {title}", "values.rs", put("fn stop_code", right, wrong), VALUES)
    for kind, lower, upper in (("revolute", "j.lower_angle", "j.upper_angle"),
                               ("spherical", "j.lower_twist_angle", "j.upper_twist_angle")):
        yield Version(f"stop code: {kind}, angles of the limits exchanged", "values.rs",
                      both(put("fn stop_code", f"{lower} >=", f"{upper} >="), put("fn stop_code", f"{upper} <=", f"{lower} <=")),
                      VALUES)
    for name, impulse in (("lower", "j.lower_twist_impulse"), ("upper", "j.upper_twist_impulse")):
        yield Version(f"stop code: {name} twist by the cone's switch", "values.rs",
                      put("fn stop_code", f"j.enable_twist_limit, {impulse}", f"j.enable_cone_limit, {impulse}"), VALUES)


def mark_versions():
    """Marks by another test, of another matrix, or of what has none."""
    test, marked = "determinant > 1000.0", ("leaves", *MARKED_SOLVES)
    report, mass = "pub fn report", "pub fn mass_mark"
    fixed = " if !%s.fixed_rotation =>"
    for name, behind, old, new, groups in (
        ("solved at the threshold", "fn decided", test, "determinant >= 1000.0", marked),
        ("a NaN solved", "fn decided", f"{test} * f32::MIN_POSITIVE", "!(determinant <= 1000.0 * f32::MIN_POSITIVE)", marked),
        ("solve2 by |det|", "fn mark2", "call_det2(m)", "abs_float(call_det2(m))", marked),
        ("solve3, invert_matrix by det itself", "fn mark3", "abs_float(det(m))", "det(m)", marked),
        ("solved and fell back exchanged", "fn mark3", "decided(abs_float(det(m)))",
         "match decided(abs_float(det(m))) { Solved => FellBack, _ => Solved }", marked),
        ("those of the two rows exchanged", report, "Report { perp, point }", "Report { perp: point, point: perp }", MARKED_SOLVES),
        ("perpendicular, though rotation is fixed", report, fixed % "joint", " =>", MARKED_SOLVES),
        ("perpendicular, frame A's rotation left out", "pub fn perp_axes", "rotate_vector(quat_a, turned)",
         "{ let _ = quat_a; turned }", MARKED_SOLVES),
        ("point, none where rotation is fixed", report, "Report { perp, point }",
         "Report { perp, point: if joint.fixed_rotation { Mark::None } else { point } }", MARKED_SOLVES),
        ("point, the bodies' turning left out", "pub fn arms", "rotate_vector(states[index as usize].delta_rotation, frame.p)",
         "{ let _ = (index, states); frame.p }", MARKED_SOLVES),
        ("spherical's mass, though not inverted", mass, fixed % "prepared", " =>", PREPARES),
        ("weld's mass, none where rotation is fixed", mass, "JointUnion::Weld(_) =>", "JointUnion::Weld(_)" + fixed % "prepared", PREPARES),
        ("a mass of revolute", mass, "_ => Mark::None", "_ => mark3(inv_inertia_sum)", PREPARES),
    ):
        yield Version(f"marks: {name}", "marks.rs", put(behind, old, new), groups)
    yield Version("marks: a refused prepare has one", "values.rs",
                  put("fn answer(", "true => Mark::None", "true => crate::marks::mass_mark(&joint)"), VALUES)
    yield Version("marks: a direct warm start has those of a solve", "direct.rs",
                  put("fn answer(", "NO_REPORT.write", "(if refusal == 0 { crate::marks::report(&joint, &states) } else { NO_REPORT }).write"),
                  ("direct",))


VERSIONS = [
    # Places that drawn numbers hardly meet.
    Version("spherical: second quaternion flipped", SPHERICAL,
            put(S, "let rel_q = inv_mul_quat(quat_a, quat_b)",
                "let flip = dot_quat(quat_a, quat_b) < 0.0; "
                "let rel_q = inv_mul_quat(quat_a, if flip { negate_quat(quat_b) } else { quat_b })"), BY_VALUE),
    *limit_versions("NaN gap above zero", NAN_GAP, BY_VALUE),
    Version("solve3: threshold with >=", MATRIX, put("pub fn solve3", *THRESHOLD), EACH),
    Version("solve2: threshold with >=", MATRIX, put("pub fn solve2", *THRESHOLD), EACH),
    Version("invert_matrix: threshold with >=", MATRIX,
            put("pub fn invert_matrix", *THRESHOLD), ("leaves", *PREPARES)),
    Version("invert_matrix: not turned over", MATRIX,
            put("pub fn invert_matrix", "transpose(out)", "out"), ("leaves", *PREPARES)),
    *exchanged_versions(),
    Version("revolute: fixed rotation with <=", REVOLUTE, put("let inv_inertia_sum", *FIXED), PREPARES),
    Version("spherical: fixed rotation with <=", SPHERICAL, put("let inv_inertia_sum", *FIXED), PREPARES),
    Version("weld: fixed rotation with <=", WELD, put("let inv_inertia_sum", *FIXED), PREPARES),
    Version("max_float: arguments swapped", SCALAR,
            put("pub fn max_float", "(a: f32, b: f32)", "(b: f32, a: f32)"), EACH),
    Version("max_float: with >=", SCALAR, put("pub fn max_float", "a > b", "a >= b"), EACH),
    # Its callers, atan2 and the tests of determinants, answer alike for both zeros: it shows in the leaf alone.
    Version("abs_float: sign of -0.0 cleared", SCALAR,
            put("pub fn abs_float", "a < 0.0", "a.is_sign_negative()"), LEAF),
    Version("abs_float: with <=", SCALAR, put("pub fn abs_float", "a < 0.0", "a <= 0.0"), LEAF),
    Version("spherical: motor bound with NaN", SPHERICAL,
            put(S, "if len > max_impulse", "if !(len <= max_impulse)"), BY_VALUE),
    # Document 01's slips.
    Version("revolute: velocity error grouped", REVOLUTE, put(R, SUBTRACTED, GROUPED), SOLVES),
    Version("spherical: velocity error grouped", SPHERICAL, put(S, SUBTRACTED, GROUPED), SOLVES),
    Version("weld: velocity error not grouped", WELD, put(W, GROUPED, SUBTRACTED), SOLVES),
    Version("spherical: swing impulse added in warm start", SPHERICAL,
            put("pub fn warm_start_spherical_joint", "mul_sub(angular_impulse", "mul_add(angular_impulse"), SOLVES),
    Version("revolute: second quaternion not flipped", REVOLUTE,
            put(R, "dot_quat(quat_a, quat_b) < 0.0", "false"), SOLVES),
    # Other signs, orders and tests.
    *(Version(f"{name}: sign of cdot", file, put(behind, old, new), SOLVES) for name, file, behind, old, new in LIMITS),
    *limit_versions("gap of zero above zero", ZERO_GAP, SOLVES),
    *(Version(name, file, exchange(*anchors), SOLVES) for name, file, *anchors in ROWS),
    *store_versions(),
    Version("weld: stored though not dynamic", WELD,
            put(W, "state_b.flags & body_flags::DYNAMIC_FLAG != 0", "joint.index_b != NULL_INDEX"), SOLVES),
    Version("solve3: det itself above the threshold", MATRIX, put("pub fn solve3", "abs_float(det)", "det"), ALL),
    Version("solve2: |det| above the threshold", MATRIX,
            put("pub fn solve2", "if det >", "if abs_float(det) >"), ("leaves", "stages")),
    Version("normalize: threshold with >=", VECTOR, put("pub fn normalize", *THRESHOLD), LEAF),
    Version("clamp_float: NaN becomes the lower bound", SCALAR,
            put("pub fn clamp_float", "a < lower", "!(a >= lower)"), ALL),
    Version("atan2: sign of a zero y taken", SCALAR,
            put("pub fn atan2", "if y < 0.0", "if y.is_sign_negative()"), LEAF),
    Version("get_twist_angle: polarity with <=", QUAT, put("pub fn get_twist_angle", "q.s < 0.0", "q.s <= 0.0"),
            ("leaves", "stages")),
    Version("delta_quat_to_rotation: polarity with <=", QUAT,
            put("pub fn delta_quat_to_rotation", "< 0.0", "<= 0.0"), ALL),
    Version("mul_add: fused", VECTOR, put("pub fn mul_add", "a.x + s * b.x", "s.mul_add(b.x, a.x)"), ALL),
    Version("weld: own point softness at hertz zero", WELD,
            put(W, "joint.linear_hertz > 0.0", "joint.linear_hertz >= 0.0"),
            SOLVES),
    Version("weld: own angular softness at hertz zero", WELD,
            put(W, "joint.angular_hertz > 0.0", "joint.angular_hertz >= 0.0"), SOLVES),
    Version("weld: joint's softness below hertz zero", WELD,
            put("pub fn prepare_weld_joint", "joint.linear_hertz == 0.0", "joint.linear_hertz <= 0.0"), STAGE),
    Version("spherical: swing stored though its limit is off", SPHERICAL,
            put("joint.delta_center = delta_center", "if enable_cone_limit", "if true"), STAGE),
    Version("spherical: rotation mass inverted though fixed", SPHERICAL,
            put("let rotation_mass", "if !base.fixed_rotation", "if true"), STAGE),
    # The oracle's own text after documents 01 and 02.
    *kept_versions(),
    *angle_versions(),
    *mark_versions(),
    *stop_versions(),
    Version("stop code: impulse of zero counts", "values.rs",
            put("fn stop_code", "impulse > 0.0", "impulse >= 0.0"), VALUES),
    Version("stop code: NaN impulse counts", "values.rs",
            put("fn stop_code", "impulse > 0.0", "!(impulse <= 0.0)"), VALUES),
    Version("stop code: limit that is off counts", "values.rs",
            put("fn stop_code", "on && impulse", "(on || !on) && impulse"), VALUES),
    Version("stop code: upper as 1, lower as 2", "values.rs",
            put("fn stop_code", "lower + 2 * upper", "upper + 2 * lower"), VALUES),
    Version("stop code: cone by the twist's switch", "values.rs",
            put("fn stop_code", "j.enable_cone_limit", "j.enable_twist_limit"), VALUES),
    Version("stop code: fixed rotation counts", "values.rs",
            put("fn stop_code", "if joint.fixed_rotation", "if false"), VALUES),
    Version("stop code: empty case not refused", "values.rs",
            put("fn stop_code", "[WRONG_CASE, 0, 0]", "[0; 3]"), VALUES),
    Version("by value: wrong case not refused", "values.rs",
            put("fn answer(", "kind_of(&joint) != Some(called)", "kind_of(&joint).is_none()"), VALUES),
    Version("by value: refused by its type", "values.rs",
            put("fn answer(", "kind_of(&joint) != Some(called)",
                "kind_of(&joint) != Some(called) || joint.type_ != crate::records::joint_type(called)"), VALUES),
    Version("direct: more than 3 states refused", "direct.rs",
            put("fn answer(", "&joint, count)", "&joint, count.min(3))"), ("direct",)),
    Version("direct: more than 32 states refused", "direct.rs",
            put("fn answer(", "&joint, count)", "&joint, count.min(32))"), ("direct",)),
    Version("direct: index -1 refused", "plain_run.rs",
            put("pub fn direct_number", "-1..", "0.."), ("direct", "lists")),
    Version("direct: second index before the first", "plain_run.rs",
            put("pub fn direct_number", "let [a, b]", "let [b, a]"), ("direct", "lists")),
    Version("list: stage before slot", "plain_run.rs",
            exchange("pub fn call_number", "        if u32::from(slot)", "        if stage > 2", "        // A joint"), ("lists",)),
    Version("still: -0 equals +0", "words.rs", put("pub fn bits", "x.to_bits()", "(x + 0.0).to_bits()"), ("lists",)),
    Version("still: a NaN unlike a NaN", "plain_run.rs",
            put("fn run_whole", "before == self.velocities()", "before == self.velocities() && !before.contains(&f32::NAN.to_bits())"),
            ("lists",)),
    Version("still: NaNs by their patterns", "words.rs", put("pub fn bits", "if x.is_nan()", "if false"), ("lists",)),
    Version("still: linear velocities alone", "records.rs",
            put("pub fn velocity_bits", "[v.x, v.y, v.z, w.x, w.y, w.z]", "{ let _ = w; [v.x, v.y, v.z] }"), ("lists",)),
]
