# An edge, or what stands between edges and the server: all requests that wait for the same answer
# are one request of it. It runs with `-p http_gzip_support=off`, since what Varnish unpacks itself
# comes late, and with `-p thread_queue_limit=N` above the number of viewers.
vcl 4.1;

backend next {
    .host = "127.0.0.1";
    .port = "@NEXT@";
    .first_byte_timeout = 30s; # above the beat of the server
    .between_bytes_timeout = 30s;
}

sub vcl_recv {
    if (req.method != "GET") {
        return (synth(405));
    }
    unset req.http.cookie;
    unset req.http.authorization;
    if (req.url ~ "/stream(\?.*)?$") {
        return (synth(404)); # a stream without an end would be one of the server for each viewer
    }
    if (req.url !~ "^(/[0-9A-Za-z_-]+)?/stream/[0-9]{1,20}/[0-9]{1,20}(\?.*)?$") {
        return (pass); # the page
    }
    set req.url = regsub(req.url, "\?.*$", ""); # a query makes no other answer
    if (req.http.accept-encoding ~ "gzip") { # two forms, by what the server says in `vary`
        set req.http.accept-encoding = "gzip";
    } else {
        unset req.http.accept-encoding;
    }
    return (hash);
}

sub vcl_hash {
    hash_data(req.url); # whatever name viewers use
    return (lookup);
}

sub vcl_backend_fetch {
    set bereq.http.host = "127.0.0.1:@NEXT@"; # the name by which the server knows itself
}

sub vcl_backend_response {
    if (bereq.uncacheable) {
        return (deliver); # the page
    }
    set beresp.grace = 0s; # an old answer is good, and a new one better
    set beresp.keep = 0s;
    if (beresp.ttl <= 0s) { # what isn't kept would be asked for once for each viewer
        set beresp.ttl = 1s;
    }
    set beresp.uncacheable = false;
    return (deliver);
}

sub vcl_backend_error {
    set beresp.ttl = 1s; # a server that doesn't answer isn't asked once for each viewer, either
    set beresp.grace = 0s;
}
