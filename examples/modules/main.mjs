// One of each form of import, over files that have one of each form of export.
import "./start.mjs";
import area from "./shapes/circle.mjs";
import * as square from "./shapes/square.mjs";
import { side, perimeter as around } from "./shapes/square.mjs";
import { default as Point } from "./shapes/point.mjs";
import line, * as lines from "./shapes/line.mjs";
import triangle, { corners, sum as total, } from "./shapes/triangle.mjs"
import {} from "./last.mjs";
import settings from "./settings.cjs";
import { level } from "./settings.cjs";
import * as all from "./all.mjs";
import count, { next } from "./count.mjs";
import words from "./words/index.cjs";
import { walk } from "./walk.mjs";
import later from "./later.mjs";
import { say } from "./say.mjs";

say("circle", area(2).toFixed(2));
say("square", square.area(side), around(side), Object.keys(square).sort().join(" "));
say("point", new Point(3, 4).length(), Point.name);
say("line", line(1, 2), lines.default === line, lines.unit);
say("triangle", triangle, corners, total(1, 2, 3));
say("settings", settings.name, level, settings.levels.length, settings.nested["a key"]);
say("all", all.first, all.second, all.renamed, all.inner.first, all.one, typeof all.default);
say("count", count, next(), next());
say("words", words("metro"), words.all.join("|"));
say("walk", [...walk([1, [2, [3]], 4])].join(), /[/}]/g.test("}"), 8 / 4 / 2);
const text = `a ${ { b: `c${1 + 1}` }.b } d`;
say("template", text, `${text.length}`);
later().then(async (name) => {
  say("later", name);
  const { default: lazy, kind } = await import("./lazy.mjs");
  say("lazy", lazy(kind));
});
