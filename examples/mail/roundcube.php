<?php
// Roundcube 1.6: these lines into config.inc.php (in Debian /etc/roundcube/config.inc.php). The
// redirection URI to register is Roundcube's URL and `index.php/login/oauth`.
$config['oauth_provider'] = 'generic';
$config['oauth_provider_name'] = 'our login';
$config['oauth_client_id'] = '@CLIENT@';
$config['oauth_client_secret'] = '@SECRET@';
$config['oauth_auth_uri'] = 'https://login.example/authorize';
$config['oauth_token_uri'] = 'https://login.example/token';
// `who` says whose mailbox it is
$config['oauth_identity_uri'] = 'https://login.example/who';
$config['oauth_identity_fields'] = ['sub'];
$config['oauth_scope'] = 'mail';
// PHP's own sessions let one request of a login run at a time, so that one of them refreshes. With
// 'db', the default, two do, and without `serve --repeat` that ends the login
$config['session_storage'] = 'php';
$config['imap_host'] = 'ssl://mail.example:993';
