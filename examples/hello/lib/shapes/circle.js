var words = require("../words.js");

exports.area = function (radius) {
  return words.hello.length === 5 ? 3.14159265 * radius * radius : 0;
};
