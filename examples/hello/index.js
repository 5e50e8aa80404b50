// Says hello, by way of a few modules, two of which require each other.
var greet = require("./lib/greet.js");
var even = require("./lib/even.js");
var circle = require("./lib/shapes/circle.js");

console.log(greet("Metro"));
console.log("10 is even: " + even.isEven(10));
console.log("7 is even: " + even.isEven(7));
console.log("area of a circle of 2: " + circle.area(2).toFixed(3));
