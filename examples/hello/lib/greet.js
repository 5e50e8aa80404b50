var words = require("./words.js");

module.exports = function (name) {
  return words.hello + ", " + name + "!";
};
