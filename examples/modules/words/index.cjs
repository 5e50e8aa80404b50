// Two files that require each other, one of them by an expression in a template.
exports = module.exports = function (word) { return `${require("./loud.cjs").loud(word)}!`; };
module.exports.all = ["a", "b"];
exports.quiet = (word) => word.toLowerCase();
