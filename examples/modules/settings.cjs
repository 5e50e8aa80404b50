// JSON and CommonJS.
const file = require("./settings.json");
exports.name = file.name;
exports.level = file.levels[1];
exports.levels = file.levels;
exports.nested = require("./settings.json").nested;
