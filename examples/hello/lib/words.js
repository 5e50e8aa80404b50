exports.hello = "Hello";
