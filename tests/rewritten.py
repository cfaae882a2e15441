"""Sources of beginners, and words that are said of each: mostly what they wrote, as it should be written. Of some nothing is said."""

from __future__ import annotations

# Statements of a loop, whose variables are declared: in another language, or meant in another way.
STATEMENTS: list[tuple[str, list[str]]] = [
    ("a = b // c;", ["`b / c`"]),
    ("drive(d, b // 10);", ["`b / 10`"]),
    ("a = loc_x() // 2;", ["`loc_x() / 2`"]),
    ("a = (b + c) // 2;", ["`(b + c) / 2`"]),
    ("drive(a, 50); // east side", ["/* east side */"]),
    ("drive(a, 50); // east", ["/* .. */"]),
    ("cannon(range: r, degree: d);", ["`cannon(d, r)`"]),
    ("drive(speed: 50, degree: 90);", ["`drive(90, 50)`"]),
    ("a = scan(degree: d, resolution: 10);", ["`scan(d, 10)`"]),
    ("drive(90, speed: 50);", ["`drive(90, 50)`"]),
    ("drive(degree: (a + 2) * 3, speed: b);", ["`drive((a + 2) * 3, b)`"]),
    ("drive(90, 50) if damage() > 5;", ["`if (damage() > 5) drive(90, 50);`"]),
    ("a = 0 if (b > c) else 20;", ["`if (b > c) a = 0; else a = 20;`"]),
    ("a += 5 if b else 10;", ["`if (b) a += 5; else a += 10;`"]),
    ("a = b > 5 ? 1 : 2;", ["`if (b > 5) a = 1; else a = 2;`"]),
    ("drive(90, 50 if a else 100);", ["an `if` is a statement and has no value"]),
    ("repeat (5) { drive(0, 50); }", ["`n = 0; while (n < 5) { n = n + 1; drive(0, 50); }`"]),
    ("repeat 5 {\n drive(0, 50);\n cannon(0, 90); }", ["`n = 0; while (n < 5) { n = n + 1; .. }`"]),
    ("repeat (a + 2) {\n drive(0, 50);\n drive(0, 5); }", ["`n = 0; while (n < a + 2) { n = n + 1; .. }`"]),
    ("do 5 times { drive(0, 50); }", ["`n = 0; while (n < 5) { n = n + 1; drive(0, 50); }`"]),
    ("loop (5) {\n drive(0, 50);\n cannon(0, 90); }", ["`n = 0; while (n < 5) { n = n + 1; .. }`"]),
    ("loop 5 times {\n drive(0, 50);\n cannon(0, 90); }", ["`n = 0; while (n < 5) { n = n + 1; .. }`"]),
    ("5.times do\n drive(0, 50);\nend", ["`n = 0; while (n < 5) { n = n + 1; .. }`"]),
    ("for (int i = 0; i < 5; i++) {\n drive(0, 50);\n drive(0, 5); }", ["`i = 0; while (i < 5) { ..; i++; }`"]),
    ("for (i = 0; i < 5; i++) drive(i, 50);", ["`i = 0; while (i < 5) { drive(i, 50); i++; }`"]),
    ("for i in range(10):\n  drive(i, 50);", ["`i = 0; while (i < 10) { ..; i = i + 1; }`"]),
    ("for i in range(0, 360, 20):\n  drive(i, 50);", ["`i = 0; while (i < 360) { ..; i = i + 20; }`"]),
    ("for a = 0 to 340 step 20\n drive(a, 50);", ["`a = 0; while (a <= 340) { ..; a = a + 20; }`"]),
    ("for i = 1, 10 do drive(i, 50); end", ["`i = 1; while (i <= 10) { ..; i = i + 1; }`"]),
    ("drive(rand() % 360, 50);", ["`rand(360)`", "always 0"]),
    ("drive(rand(), 50);", ["`rand(360)`", "always 0"]),
    ("drive(90);", ["`drive(90, 50)`"]),
    ("r = scan(d); cannon(d, r);", ["`scan(d, 10)`"]),
    ("a = dx ** 2;", ["`dx * dx`"]),
    ("a = b ^ 2; drive(a, b);", ["`b * b`"]),
    ("if b > 5 {\n drive(0, 50); }", ["`if (b > 5)`"]),
    ("if b > 5 then drive(0, 50);", ["`if (b > 5)`"]),
    ("while loc_x() < 500 drive(0, 50);", ["`while (loc_x() < 500)`"]),
    ("if b > 5 and a < 3 {\n drive(0, 50); }", ["brackets"]),
    ("drive 90, 50;", ["`drive(90, 50)`"]),
    ("scan(d, 10) -> r;", ["`r = scan(d, 10);`"]),
    ("drive(d, -40);", ["`drive(d + 180, 40)`"]),
    ("r = scan(d, 45); if (r > 40) cannon(d, r);", ["`scan(d, 10)`"]),
    ("a = atan(loc_y() / loc_x()); drive(a, 50);", ["`atan(100000 * loc_y() / loc_x())`"]),
    ("a = Math.max(b, c);", ["`if (b > a) a = b;`"]),
    ("a = Math.min(b, c);", ["`if (b < a) a = b;`"]),
    ("a = Math.abs(b);", ["`if (a < 0) a = -a;`"]),
    ("robot.fire();", ["`cannon(degree, range)`"]),
    ("self.fire(d, r);", ["`cannon(degree, range)`"]),
    ("console.log(a);", ["writes nothing"]),
    ("a = random.randint(1, 6);", ["`rand("]),
    ("a = this.x;", ["no objects"]),
    ("a = enemy.posX;", ["`loc_x()`"]),
    ("a = Math.PI;", ["half of a circle"]),
    ("a = math.floor(b / 2);", ["whole numbers"]),
    ("a = Math.floor(Math.random() * 360);", ["`rand("]),
    ("a = Math.round(Math.sqrt(b));", ["`sqrt(b)` alone"]),
    ("robot.drive(90, 50);", ["`drive(90, 50)` alone"]),
    ("time.sleep(1);", ["nothing waits by itself"]),
    ("r = this.radar.scan(d, 10);", ["no objects"]),
    ("-- look for somebody\n    drive(0, 50);", ["`/* look for somebody */`"]),
    ("# look for somebody\n    drive(0, 50);", ["`/* look for somebody */`"]),
    ("' look for somebody\n    drive(0, 50);", ["`/* look for somebody */`"]),
    (";; look for somebody\n    drive(0, 50);", ["`/* look for somebody */`"]),
    ("% look for somebody\n    drive(0, 50);", ["`/* look for somebody */`"]),
    ("REM look for somebody\n    drive(0, 50);", ["`/* look for somebody */`"]),
    ("// look for somebody\n    drive(0, 50);", ["`/* look for somebody */`"]),
    ("! look for somebody\n    drive(0, 50);", ["`/* look for somebody */`"]),
    ("; look for somebody\n    drive(0, 50);", ["`/* look for somebody */`"]),
    ("drive(0, 50); -- go east now", ["`/* go east now */`"]),
    ("drive(0, 50); # go east now", ["`/* go east now */`"]),
    ("drive(0, 50);   ' go east now", ["`/* go east now */`"]),
    ("-- if somebody is there", ["`/* if somebody is there */`"]),
    ("# while we wait", ["`/* while we wait */`"]),
    ("r = scan(d, 10);\n if (r > 40) {\n x = loc_x() + r * cos(d) / 100000;\n y = loc_y() + r * sin(d) / 100000;\n cannon(x, y); }",
     ["`cannon(d, r)`"]),
    ("r = scan(d, 10);\n x = r * cos(d) / 100000 + loc_x();\n y = r * sin(d) / 100000 + loc_y();\n if (r > 40) drive(x, y);", ["no coordinates"]),
    ("if (b &gt; 5) drive(0, 50);", ["`b > 5`"]),
    ("if (loc_x() &lt; 500) drive(0, 50);", ["`loc_x() < 500`"]),
    ("if (b <> 5) drive(0, 50);", ["`b != 5`"]),
    ("if (b =< 5) drive(0, 50);", ["`b <= 5`"]),
    ("if (loc_x() => 500) drive(0, 50);", ["`loc_x() >= 500`"]),
    ("if (b === 5) drive(0, 50);", ["`b == 5`"]),
    ("a =+ 5;", ["`a += 5`"]),
    ("a = 2(b + 1);", ["`2 * (b + 1)`"]),
    ("if (b > 5) drive(0, 50); else (b < 3) drive(90, 50);", ["`else if (b < 3)`"]),
    ("if (b & d == 1) drive(0, 50);", ["`(b & d) == 1`"]),
    ("if (!b > 5) drive(d, 50);", ["`!(b > 5)`"]),
    ("b = b++; drive(b, d);", ["`b++`"]),
    ("if (r = scan(d, 10) > 40) cannon(d, r);", ["`(r = scan(d, 10)) > 40`"]),
    ("a =- 5; drive(a, b); drive(d, 9);", ["`a -= 5`"]),
    ("b == 5; drive(b, d);", ["`b = 5`"]),
    ("b + 20; drive(b, d);", ["`b = b + 20`"]),
    ("scan(b, 10); drive(b, d);", ["`r = scan(b, 10);`"]),
    ("if (b < 150 && b > 850) drive(b, d);", ["`b < 150 || b > 850`"]),
    ("if (loc_x() > 150 || loc_x() < 850) drive(b, d);", ["`loc_x() > 150 && loc_x() < 850`"]),
    ("if (b >> 5) drive(b, d);", ["`b > 5`"]),
    ("if (1 < b < 9) drive(b, d);", ["`1 < b && b < 9`"]),
    ("if (b == 5 || 10) drive(b, d);", ["`b == 5 || b == 10`"]),
]

# A robot that looks round and shoots, with statements before its loop, and others at the loop's beginning.
LOOK = ("main() {{\n  int angle, range, course, x, n, hits, old;\n\n{}\n  while (1) {{\n{}\n    range = scan(angle, 10);\n    if (range > 40)\n"
        "      cannon(angle, range);\n    else\n      angle += 20;\n  }}\n}}\n")

# Whole sources. Where there are no words, nothing is said of one.
SOURCES: list[tuple[str, list[str]]] = [
    ("main()\n{\n  int angle, range, best, target, hurt, old;\n\n  while (1) {\n    range = scan(angle, 10);\n"
     "    if (range > 40)\n      cannon(range=range, degree=angle);\n    else angle += 20;\n  }\n}\n",
     ["`cannon(angle, range)`"]),
    ("near(range)\n{\n  range < 100\n}\nmain() { while (1) { if (near(scan(0, 10))) drive(0, 50); } }\n", ["`return range < 100;`"]),
    ("far(a, b) { a * a + b * b }\nmain() { while (1) drive(far(1, 2), 50); }\n", ["`return a * a + b * b;`"]),
    ("half(a) { a / 2 }\nmain() { while (1) drive(half(90), 50); }\n", ["`return a / 2;`"]),
    ("look(a) { scan(a, 10) }\nmain() { while (1) cannon(0, look(9)); }\n", ["`return scan(a, 10);`"]),
    ("best(a, b) { if (a > b) { a } else { b } }\nmain() { while (1) drive(best(1, 2), 50); }\n", ["`return a;`"]),
    ("go(a) { drive(a, 50) }\nmain() { while (1) go(9); }\n", ["`;`"]),
    ("main() { while (1) { drive(0, 50) } }\n", ["a `;` may be missing"]),
    ("one(a) { return 1 if a > 5 else 2; }\nmain() { while (1) drive(one(1), 50); }\n", ["`if (a > 5) return 1; else return 2;`"]),
    ("m(a, b) { return a > b ? a : b; }\nmain() { while (1) drive(m(1, 2), 50); }\n", ["`if (a > b) return a; else return b;`"]),
    ("shoot(angle, range) { cannon(angle, range); }\nmain() { while (1) shoot(9); }\n", ["`shoot(9, range)`"]),
    ("shoot(angle) { cannon(angle, 90); }\nmain() { while (1) shoot(9, 80); }\n", ["`shoot(9)`"]),
    ("-- my first robot\nmain() { while (1) drive(0, 50); }\n", ["`/* my first robot */`"]),
    ("# my first robot\nmain() { while (1) drive(0, 50); }\n", ["`/* my first robot */`"]),
    ("' my first robot\nmain() { while (1) drive(0, 50); }\n", ["`/* my first robot */`"]),
    (";; my first robot\nmain() { while (1) drive(0, 50); }\n", ["`/* my first robot */`"]),
    ("% my first robot\nmain() { while (1) drive(0, 50); }\n", ["`/* my first robot */`"]),
    ("REM my first robot\nmain() { while (1) drive(0, 50); }\n", ["`/* my first robot */`"]),
    ("// my first robot\nmain() { while (1) drive(0, 50); }\n", ["`/* my first robot */`"]),
    ("! my first robot\nmain() { while (1) drive(0, 50); }\n", ["`/* my first robot */`"]),
    ("; my first robot\nmain() { while (1) drive(0, 50); }\n", ["`/* my first robot */`"]),
    ("#define MAX 700\nmain() { while (1) drive(0, MAX); }\n", ["#define"]),
    ("#include <stdio.h>\nmain() { while (1) drive(0, 50); }\n", ["#include"]),
    ("fire(a) { cannon(a, 90); }\nfire(a, b) { cannon(a, b); }\nmain() { while (1) fire(1); }\n", ["another name", "`fire2`"]),
    ("main()\n{\n  int angle, range, best, target, hurt, old;\n\n  while (1) {\n    range = scan(angle, 10);\n"
     "    angle = angle + 20;\n    if (range > 40)\n      cannon(angle, range);\n  }\n}\n",
     ["since the `scan`"]),
    ("main()\n{\n  int angle, range, best, target, hurt, old;\n\n  while (1) {\n    range = scan(angle, 10);\n    angle++;\n"
     "    if (range > 40 && range < 700)\n      cannon(angle, range);\n  }\n}\n",
     ["since the `scan`"]),
    ("main()\n{\n  int angle, range, best, target, hurt, old;\n\n  while (1) {\n    range = scan(angle, 10);\n"
     "    angle = (angle + 20) % 360;\n    drive(angle, 50);\n    cannon(angle, range);\n  }\n}\n",
     ["since the `scan`"]),
    ("int angle, range;\nmain()\n{\n  while (1) {\n    range = scan(angle, 10);\n    angle -= 20;\n    if (range) {\n"
     "      cannon(angle, range + 5);\n    }\n  }\n}\n",
     ["since the `scan`"]),
    ("main()\n{\n  int angle, range, best, target, hurt, old;\n\n  while (1) {\n    if ((range = scan(angle, 10)) > 40) {\n"
     "      angle += 20;\n      cannon(angle, range);\n    }\n  }\n}\n",
     ["since the `scan`"]),
    ("main()\n{\n  int angle, range, best, target, hurt, old;\n\n  while (1) {\n    range = scan(angle, 10);\n"
     "    if (range > 40) {\n      cannon(angle, range);\n      angle += 20;\n    } else\n      angle += 20;\n  }\n}\n",
     []),
    ("main()\n{\n  int angle, range, best, target, hurt, old;\n\n  while (1) {\n    while ((range = scan(angle, 10)) == 0)\n"
     "      angle += 20;\n    cannon(angle, range);\n  }\n}\n",
     []),
    ("main()\n{\n  int angle, range, best, target, hurt, old;\n\n  while (1) {\n    range = scan(angle, 10);\n"
     "    if (range == 0)\n      angle += 20;\n    else\n      cannon(angle, range);\n  }\n}\n",
     []),
    ("main()\n{\n  int angle, range, best, target, hurt, old;\n\n  while (1) {\n    range = scan(angle, 10);\n"
     "    angle += 20;\n    if (range > 40)\n      cannon(angle - 20, range);\n  }\n}\n",
     []),
    ("main()\n{\n  int angle, range, best, target, hurt, old;\n\n  while (1) {\n    range = scan(angle, 10);\n"
     "    angle += 20;\n    angle -= 20;\n    if (range > 40)\n      cannon(angle, range);\n  }\n}\n",
     []),
    ("main()\n{\n  int angle, range, best, target, hurt, old;\n\n  while (1) {\n    range = scan(angle, 10);\n"
     "    angle += 5;\n    range = scan(angle, 5);\n    if (range > 40)\n      cannon(angle, range);\n  }\n}\n",
     []),
    ("main()\n{\n  int angle, range, best, target, hurt, old;\n\n  while (1) {\n    best = 2000;\n    angle = 0;\n"
     "    while (angle < 360) {\n      range = scan(angle, 10);\n      if (range < best) {\n        best = range;\n"
     "        target = angle;\n      }\n      angle += 20;\n    }\n    cannon(target, best);\n  }\n}\n",
     ["`if (range > 0 && range < best)`"]),
    ("main()\n{\n  int angle, range, best, target, hurt, old;\n\n  while (1) {\n    best = 2000; angle = 0;\n"
     "    while (angle < 360) {\n      range = scan(angle, 10);\n      if (best > range) {\n"
     "        target = angle; best = range;\n      }\n      angle += 20;\n    }\n    cannon(target, best);\n  }\n}\n",
     ["`if (range > 0 && best > range)`"]),
    ("main()\n{\n  int angle, range, best, target, hurt, old;\n\n  while (1) {\n    best = 2000; angle = 0;\n"
     "    while (angle < 360) {\n      if ((range = scan(angle, 10)) <= best) {\n        target = angle; best = range;\n"
     "      }\n      angle += 20;\n    }\n    cannon(target, best);\n  }\n}\n",
     ["leave 0 out"]),
    ("main()\n{\n  int angle, range, best, target, hurt, old;\n\n  while (1) {\n    best = 2000; angle = 0;\n"
     "    while (angle < 360) {\n      range = scan(angle, 10);\n      if (range < best && angle != old) {\n"
     "        target = angle; best = range;\n      }\n      angle += 20;\n    }\n    old = target; cannon(target, best);\n"
     "  }\n}\n",
     ["leave 0 out"]),
    ("int best, target;\nmain()\n{\n  int angle, range;\n  while (1) {\n    best = 2000; angle = 0;\n    while (angle < 360) {\n"
     "      range = scan(angle, 10);\n      if (range < best)\n        best = range;\n      angle += 20;\n    }\n"
     "    cannon(target, best); target = angle;\n  }\n}\n",
     ["leave 0 out"]),
    ("main()\n{\n  int angle, range, best, target, hurt, old;\n\n  while (1) {\n    best = 2000; angle = 0;\n"
     "    while (angle < 360) {\n      range = scan(angle, 10);\n      if (range > 0 && range < best) {\n"
     "        target = angle; best = range;\n      }\n      angle += 20;\n    }\n    cannon(target, best);\n  }\n}\n",
     []),
    ("main()\n{\n  int angle, range, best, target, hurt, old;\n\n  while (1) {\n    best = 2000; angle = 0;\n"
     "    while (angle < 360) {\n      range = scan(angle, 10);\n      if (range)\n        if (range < best) {\n"
     "          target = angle; best = range;\n        }\n      angle += 20;\n    }\n    cannon(target, best);\n  }\n}\n",
     []),
    ("main()\n{\n  int angle, range, best, target, hurt, old;\n\n  while (1) {\n    best = 2000; angle = 0;\n"
     "    while (angle < 360) {\n      range = scan(angle, 10);\n      if (range < best) {\n        if (range > 0) {\n"
     "          target = angle; best = range;\n        }\n      }\n      angle += 20;\n    }\n    cannon(target, best);\n"
     "  }\n}\n",
     []),
    ("main()\n{\n  int angle, range, best, target, hurt, old;\n\n  while (1) {\n    best = 2000; angle = 0;\n"
     "    while (angle < 360) {\n      range = scan(angle, 10);\n      if (range == 0) range = 2000;\n"
     "      if (range < best) {\n        target = angle; best = range;\n      }\n      angle += 20;\n    }\n"
     "    cannon(target, best);\n  }\n}\n",
     []),
    ("int x, y;\nshoot(a, b) { cannon(a, b); }\n"
     "main() { int r; while (1) { r = scan(9, 10); x = loc_x() + r * cos(9) / 100000; y = loc_y() + r * sin(9) / 100000; shoot(x, y); } }\n",
     ["no coordinates"]),
    ("main()\n{\n  int angle, range, best, target, hurt, old;\n\n  while (1) {\n    if (scan(angle, 5))\n"
     "      cannon(angle, 700);\n    else\n      angle += 10;\n  }\n}\n",
     ["bursts only", "cannon(angle, range)"]),
    ("main()\n{\n  int angle, range, best, target, hurt, old;\n\n  while (1) {\n    while (scan(angle, 5) > 0)\n"
     "      cannon(angle, 700);\n    angle += 10;\n  }\n}\n",
     ["bursts only"]),
    ("main()\n{\n  int angle, range, best, target, hurt, old;\n\n  while (1) {\n    if (scan(angle, 10) == 0)\n"
     "      angle += 10;\n    else\n      cannon(angle, 700);\n  }\n}\n",
     ["bursts only"]),
    ("main()\n{\n  int angle, range, best, target, hurt, old;\n\n  hurt = damage();\n  while (1) {\n"
     "    if (damage() > hurt)\n      drive(rand(360), 50);\n  }\n}\n",
     ["`hurt = damage()`"]),
    ("main()\n{\n  int angle, range, best, target, hurt, old;\n\n  hurt = damage();\n  while (1) {\n"
     "    if (hurt < damage())\n      drive(rand(360), 50);\n  }\n}\n",
     ["`hurt = damage()`"]),
    ("main()\n{\n  int angle, range, best, target, hurt, old;\n\n  hurt = damage();\n  while (1) {\n"
     "    if (damage() != hurt) {\n      drive(rand(360), 50); }\n  }\n}\n",
     ["`hurt = damage()`"]),
    ("main()\n{\n  int angle, range, best, target, hurt, old;\n\n  old = loc_x();\n  while (1) {\n    if (loc_x() == old)\n"
     "      drive(rand(360), 50);\n  }\n}\n",
     ["`old = loc_x()`"]),
    ("int hurt;\nmain()\n{\n  hurt = damage();\n  while (1) {\n    while (speed() > 0) {\n"
     "      if (damage() > hurt) drive(90, 50);\n    }\n    drive(rand(360), 40);\n  }\n}\n",
     ["`hurt = damage()`"]),
    ("int hurt;\nflee()\n{\n  if (damage() > hurt)\n    drive(rand(360), 50);\n}\nmain()\n{\n  hurt = damage();\n  while (1)\n    flee();\n}\n",
     ["`hurt = damage()`"]),
    ("main()\n{\n  int angle, range, best, target, hurt, old;\n\n  while (1) {\n    hurt = damage();\n"
     "    while (damage() == hurt)\n      drive(rand(360), 50);\n  }\n}\n",
     []),
    ("main()\n{\n  int angle, range, best, target, hurt, old;\n\n  hurt = damage();\n  while (damage() == hurt)\n"
     "    drive(90, 50);\n  while (1)\n    drive(rand(360), 50);\n}\n",
     []),
    ("main()\n{\n  int angle, range, best, target, hurt, old;\n\n  old = loc_x();\n  while (1) {\n"
     "    if (loc_x() > old + 100) drive(180, 50);\n    if (loc_x() < old) drive(0, 50);\n  }\n}\n",
     []),
    ("main()\n{\n  int angle, range, best, target, hurt, old;\n\n  hurt = damage();\n  while (1) {\n"
     "    if (damage() > hurt) { drive(rand(360), 50); hurt = damage(); }\n  }\n}\n",
     []),
    ("next(angle) { angle = angle + 20; }\nmain() { int a; while (1) { a = rand(9); next(a); drive(a, 9); } }\n", ["`return angle;`"]),
    ("main()\n{\n  int angle, range, best, target, hurt, old;\n\n  while (1) {\n    best = 2000; angle = 0;\n"
     "    while (angle < 360) {\n      if (range = scan(angle, 10))\n        if (range < best) {\n"
     "          target = angle; best = range;\n        }\n      angle += 20;\n    }\n    cannon(target, best);\n  }\n}\n",
     []),
    ("main()\n{\n  int angle, range, best, target, hurt, old;\n\n  while (1) {\n    best = 2000; angle = 0;\n"
     "    while (angle < 360) {\n      while ((range = scan(angle, 10)) == 0)\n        angle += 20;\n"
     "      if (range < best) {\n        target = angle; best = range;\n      }\n      angle += 20;\n    }\n"
     "    cannon(target, best);\n  }\n}\n",
     []),
    # what the game does otherwise: each source has what is misread of it, and one that is nearly the same and right has nothing
    (LOOK.format("", "    drive(90, 50);\n    n = 0;\n    while (n < 40) n += 1;"), ["absolute", "`course += 90; drive(course, 50);`"]),
    (LOOK.format("", "    drive(course, 50);\n    n = 0;\n    while (n < 40) n += 1;\n    course += 90;"), []),
    (LOOK.format("  drive(rand(360), 80);", ""), ["stops at the wall", "doesn't bounce"]),
    (LOOK.format("  drive(rand(360), 80);", "    if (speed() == 0) drive(rand(360), 50);"), []),
    (LOOK.format("  drive(90, 50);", ""), []),
    (LOOK.format("  drive(90, 50);\n  if (loc_y() > 900)\n    drive(90, 0);", ""), ["asked once", "`while`"]),
    (LOOK.format("  if (loc_y() > 500) course = 270; else course = 90;\n  drive(course, 50);", ""), []),
    (LOOK.format("  drive(0, 50);\n  while (scan(0, 5) > 100) ;\n  drive(0, 0);", ""), ["no walls", "`loc_x()`"]),
    (LOOK.format("  drive(course, 50);", "    if (scan(course, 5) < 100)\n      course = 180 - course;\n    drive(course, 50);"), ["no walls"]),
    (LOOK.format("", "    if (loc_x() < 100) course = 0;\n    if (loc_x() > 900) course = 180;\n    drive(course, 50);"), []),
    (LOOK.format("", "    if (loc_y() < 100) drive(270, 50); else drive(90, 0);"), ["y to the north"]),
    (LOOK.format("", "    if (scan(angle, 10) < 100)\n      drive(angle + 180, 50);"), ["0 is less", "range > 0"]),
    (LOOK.format("", "    if (damage() < 30 && loc_x() > 100)\n      drive(180, 50);\n    else\n      drive(180, 0);"), ["own", "grows"]),
    (LOOK.format("", "    if (damage() > 70 && loc_x() > 100)\n      drive(180, 50);\n    else\n      drive(180, 0);"), []),
    (LOOK.format("", "    if (damage() < 30) drive(course, 50); else drive(course, 30);\n    course = rand(360);"), []),
    (LOOK.format("  while (damage() > 0) cannon(0, 300);", ""), ["`damage()` is the robot's own", "`while (1)`"]),
    (LOOK.format("", "    while (damage() < 100) cannon(angle, range);"), ["own", "always so"]),
    (LOOK.format("", "    old = damage();\n    cannon(angle, 300);\n    if (damage() > old) drive(angle, 50);"), ["own", "nothing tells"]),
    (LOOK.format("", "    hits = cannon(angle, 300);\n    if (hits) drive(angle, 50);"), ["1 if it fired", "nothing tells"]),
    (LOOK.format("", "    if (cannon(angle, 300)) hits += 1;\n    if (hits > 5) drive(angle, 50);"), ["1 if it fired"]),
    (LOOK.format("", "    if (scan(angle, 10) == 3) drive(angle, 50);"), ["how many metres off"]),
    (LOOK.format("", "    n = scan(360, 10);\n    if (n > 40) cannon(0, n);"), ["to the east alone"]),
    (LOOK.format("  x = loc_x();", "    if (x > 900) drive(180, 50); else drive(0, 50);"), ["one question before this loop"]),
    (LOOK.format("  x = loc_x();", "    if (x > 500) drive(180, 50); else drive(0, 50);"), []),
    (LOOK.format("  x = loc_x();", "    if (loc_x() > x + 90) drive(180, 50); else drive(0, 50);"), []),
    (LOOK.format("  drive(0, 50);\n  x = loc_x();\n  while (x < 900) ;\n  drive(0, 0);", ""), ["`x = loc_x()` there"]),
    (LOOK.format("", "    if (loc_x() == 500) drive(90, 50); else drive(0, 50);"), ["hardly ever is exactly there"]),
    (LOOK.format("", "    if (loc_x() == 0) drive(0, 50);"), []),
    (LOOK.format("", "    n = 0;\n    cannon(n, 300);\n    n += 20;"), ["`n` begins anew"]),
    (LOOK.format("", "    n = 0;\n    while (n < 360) {\n      cannon(n, 300);\n      n += 20;\n    }"), []),
    (LOOK.format("  n = 0;", "    while (n < 360) {\n      cannon(n, 300);\n      n += 20;\n    }"), ["done once alone"]),
    (LOOK.format("", "    x = n = 0;\n    while (n < 360) {\n      range = scan(n, 10);\n      if (range > 0 && range < x) x = range;\n      n += 20;\n    }"),
     ["begins with 0"]),
    (LOOK.format("", "    n = 300 * sin(angle * 314 / 18000) / 100000;\n    if (n > 50) drive(0, 50);"), ["no radians"]),
    (LOOK.format("", "    drive(angle, range / 700 * 100);"), ["rounded down first"]),
    (LOOK.format("", "    drive(angle, 100 * range / 1400);"), []),
    (LOOK.format("  drive(rand(0, 360), 0);", ""), ["`a + rand(b - a + 1)`"]),
    (LOOK.format("  drive(atan(x, n), 0);\n  x = n = 1;", ""), ["`atan(100000 * y / x)`"]),
    (LOOK.format("", "    if (range /= 0) drive(angle, 50);"), ["`range != 0`"]),
    (LOOK.format("", "    if (!damage() == old) old = damage();"), ["`!(damage() == old)`"]),
    # heads, conditions and remainders as in other languages, and what is nearly so
    ("turn(d = 9) {\n  drive(d, 50);\n}\nmain() { while (1) turn(9); }\n", ["no default value", "`turn(d) {`"]),
    ("turn(d) returns int {\n  drive(d, 50);\n}\nmain() { while (1) turn(9); }\n", ["nothing stands between the head of a function and its `{`", "`turn(d) {`"]),
    ("turn(d) => {\n  drive(d, 50);\n}\nmain() { while (1) turn(9); }\n", ["`turn(d) {`"]),
    ("turn d {\n  drive(d, 50);\n}\nmain() { while (1) turn(9); }\n", ["brackets behind its name"]),
    ("proc turn(d) {\n  drive(d, 50);\n}\nmain() { while (1) turn(9); }\n", ["`turn(d) {`"]),
    ("turn(d,) {\n  drive(d, 50);\n}\nmain() { while (1) turn(9); }\n", ["`turn(d) {`"]),
    (LOOK.format("", "    while (n = 0; n < 360; n += 20) cannon(n, 300);"), ["`n = 0; while (n < 360) { cannon(n, 300); n += 20; }`"]),
    (LOOK.format("", "    if (range > 40, 1, 2);"), ["one condition in its brackets"]),
    (LOOK.format("", "    n = (n - 1) % 4;\n    drive(n * 90, 50);"), ["`(n + 3) % 4`"]),
    (LOOK.format("", "    n = (n + 3) % 4;\n    drive(n * 90, 50);"), []),
    (LOOK.format("", "    drive(angle, (999 - loc_x()) * 100 / 999);"), []),
    # words, signs and marks of other languages, by kind
    (LOOK.format("", "    if (range -lt 40) angle = 5;"), ["`lt` is Shell: write `<`"]),
    (LOOK.format("", "    if (range eq 40) angle = 5;"), ["write `==`"]),
    (LOOK.format("", "    if (range > = 40) angle = 5;"), ["`range >= 40`"]),
    (LOOK.format("", "    if (range ! = 40) angle = 5;"), ["`range != 40`"]),
    (LOOK.format("", "    if (range > 40 & & range < 700) angle = 5;"), ["`40 && range`"]),
    (LOOK.format("", "    if (range > 40, range < 700) angle = 5;"), ["`40 && range`", "`||`"]),
    (LOOK.format("", "    scan(angle, 10) = range;"), ["`range = scan(angle, 10);`"]),
    (LOOK.format("", "    range + 20 = range;"), ["`range = range + 20;`"]),
    (LOOK.format("", "    damage() = 0;"), ["nothing mends damage"]),
    (LOOK.format("", "    drive(90deg, 50);"), ["no unit"]),
    (LOOK.format("", "    cannon(angle, 500m);"), ["no unit", "metres"]),
    (LOOK.format("", "    drive(angle, 50 %);"), ["no percent sign"]),
    (LOOK.format("", "    n = 1_000;"), ["digits alone"]),
    (LOOK.format("", "    n = (n + 1)(n + 2);"), ["`(n + 1) * (n + 2)`"]),
    (LOOK.format("", "    n = n \\ 2;"), ["a quotient is written `/`"]),
    (LOOK.format("", "    cannon(*angle, range);"), ["no pointers"]),
    (LOOK.format("", "    repair();"), ["nothing mends damage"]),
    (LOOK.format("", "    n = acos(5);"), ["it isn't there"]),
]
