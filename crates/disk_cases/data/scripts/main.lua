local skynet = require "skynet"
skynet.error("hello")
