const words = require("../words/index.cjs",);
exports.loud = function (word) { return words.quiet(word).toUpperCase(); };
// A function with its own require.
exports.other = function (require) { return require("./none.cjs"); };
