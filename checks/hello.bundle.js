var __DEV__=true;
(function(global){
var defs={},done={};
function define(f,id,deps){defs[id]={f:f,deps:deps};delete done[id];}
function run(id){
if(id===null)return {};
if(done[id])return done[id].exports;
var d=defs[id];
if(!d)throw new Error("unknown module "+id);
var m=done[id]={exports:{}};
d.f(global,run,importDefault,importAll,m,m.exports,d.deps);
return m.exports;
}
function importDefault(id){var e=run(id);return e&&e.__esModule?e.default:e;}
function importAll(id){var e=run(id);if(e&&e.__esModule)return e;var r={};for(var k in e)r[k]=e[k];r.default=e;return r;}
global.__d=define;global.__r=run;
global.__exportAll=function(t,e){for(var k in e)if(k!=="default")t[k]=e[k];};
})(typeof globalThis!=="undefined"?globalThis:this);
__d(function (global, require, importDefault, importAll, module, exports, dependencyMap) {
// Says hello, by way of a few modules, two of which require each other.
var greet = require(dependencyMap[0]);
var even = require(dependencyMap[1]);
var circle = require(dependencyMap[2]);

console.log(greet("Metro"));
console.log("10 is even: " + even.isEven(10));
console.log("7 is even: " + even.isEven(7));
console.log("area of a circle of 2: " + circle.area(2).toFixed(3));

},0,[2,1,4],"index.js");
__d(function (global, require, importDefault, importAll, module, exports, dependencyMap) {
// A cycle: even.js requires odd.js, and odd.js requires even.js.
var odd = require(dependencyMap[0]);

exports.isEven = function (n) {
  return n === 0 ? true : odd.isOdd(n - 1);
};

},1,[3],"lib/even.js");
__d(function (global, require, importDefault, importAll, module, exports, dependencyMap) {
var words = require(dependencyMap[0]);

module.exports = function (name) {
  return words.hello + ", " + name + "!";
};

},2,[5],"lib/greet.js");
__d(function (global, require, importDefault, importAll, module, exports, dependencyMap) {
var even = require(dependencyMap[0]);

exports.isOdd = function (n) {
  return n === 0 ? false : even.isEven(n - 1);
};

},3,[1],"lib/odd.js");
__d(function (global, require, importDefault, importAll, module, exports, dependencyMap) {
var words = require(dependencyMap[0]);

exports.area = function (radius) {
  return words.hello.length === 5 ? 3.14159265 * radius * radius : 0;
};

},4,[5],"lib/shapes/circle.js");
__d(function (global, require, importDefault, importAll, module, exports, dependencyMap) {
exports.hello = "Hello";

},5,[],"lib/words.js");
__r(0);
