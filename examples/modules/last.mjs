console.log("last");
