<?php
// A whole sign-in from PHP's FFI, of which Chromium made the response; openssl verifies its signature. With recorded.txt, passkey.cdef
// and libpasskey.so.5 in the folder: php sign-in.php
$passkey = FFI::cdef(file_get_contents('passkey.cdef'), './libpasskey.so.5');
if ($passkey->passkey_abi_version() !== $passkey->PASSKEY_ABI_VERSION) {
    fwrite(STDERR, "libpasskey has another ABI than passkey.cdef\n");
    exit(1);
}
const BAD_SIGNATURE = 14;

// Memory that a call lends: it has to live as long as the call does, so it stands in $lent.
function lend(FFI $passkey, array &$lent, string $bytes, int $room = 0): FFI\CData
{
    $memory = $passkey->new('uint8_t[' . max(1, strlen($bytes), $room) . ']');
    FFI::memcpy($memory, $bytes, strlen($bytes));
    $value = $passkey->new('passkey_bytes');
    $value->data = FFI::addr($memory[0]);
    $value->size = strlen($bytes);
    $lent[] = $memory;
    return $value;
}

// The same key as OpenSSL reads it (RFC 5480).
function isValid(string $point, string $message, string $signature): bool
{
    $head = hex2bin('3059301306072a8648ce3d020106082a8648ce3d03010703420004');
    $pem = "-----BEGIN PUBLIC KEY-----\n" . base64_encode($head . $point) . "\n-----END PUBLIC KEY-----\n";
    return openssl_verify($message, $signature, $pem, OPENSSL_ALGO_SHA256) === 1;
}

// Judges a sign-in, and verifies its signature where each step before it is passed.
function signIn(FFI $passkey, array $parts): array
{
    $lent = [];
    $bytes = array_map(function (string $part) use ($passkey, &$lent) { return lend($passkey, $lent, $part); }, $parts);
    $call = $passkey->new('passkey_assertion_call');
    $out = $passkey->new('passkey_assertion_out');
    $call->party->rp_id = $bytes['rp_id'];
    $call->party->origins = FFI::addr($bytes['origin']);
    $call->party->origin_count = 1;
    $call->party->profile = $passkey->PASSKEY_PROFILE_LEVEL3;
    $call->has_session = 1;
    $call->session->challenge = $bytes['challenge'];
    $call->has_credential = 1;
    $call->credential->id = $bytes['id'];
    $call->credential->user = $bytes['user'];
    $call->credential->key->algorithm = $passkey->PASSKEY_ES256;
    $call->credential->key->x = $bytes['x'];
    $call->credential->key->y = $bytes['y'];
    $call->credential->sign_count = 1;
    $call->credential->is_eligibility_known = 1;
    $call->response->credential = $bytes['id'];
    $call->response->has_user = 1;
    $call->response->user = $bytes['user'];
    $call->response->auth_data = $bytes['auth_data'];
    $call->response->signature = $bytes['signature'];
    $call->response->client_data = $bytes['client_data'];
    $answer = $passkey->passkey_assertion_5(FFI::addr($call), FFI::addr($out));
    if ($answer !== BAD_SIGNATURE) {
        return [$answer, $out->sign_count];
    }
    $asked = $passkey->new('passkey_signature_call');
    $asked->assertion = $call->response;
    $asked->key = $call->credential->key;
    $told = $passkey->new('passkey_signature_out');
    $message = lend($passkey, $lent, '', strlen($parts['auth_data']) + 32);
    $signature = lend($passkey, $lent, '', strlen($parts['signature']));
    if ($passkey->passkey_signature_asked_5(FFI::addr($asked), $message->data, strlen($parts['auth_data']) + 32, $signature->data,
                                            strlen($parts['signature']), FFI::addr($told)) !== 0) {
        return [$answer, 0];
    }
    $message->size = $told->message_size;
    $signature->size = $told->signature_size;
    if (!isValid($parts['x'] . $parts['y'], FFI::string($message->data, $message->size), FFI::string($signature->data, $signature->size))) {
        return [$answer, 0];
    }
    $call->has_verified = 1;
    $call->verified->key = $call->credential->key;
    $call->verified->message = $message;
    $call->verified->signature = $signature;
    return [$passkey->passkey_assertion_5(FFI::addr($call), FFI::addr($out)), $out->sign_count];
}

function text(FFI $passkey, int $answer): string
{
    $room = $passkey->new('uint8_t[128]');
    return FFI::string($room, $passkey->passkey_refusal_text_5(0, $answer, $room, 128));
}

$parts = [];
foreach (file('recorded.txt', FILE_IGNORE_NEW_LINES) as $line) {
    [$name, $digits] = explode(' ', $line);
    $parts[$name] = hex2bin($digits);
}
foreach ([0, 1] as $change) {
    $at = strlen($parts['signature']) - 1;
    $parts['signature'][$at] = chr(ord($parts['signature'][$at]) ^ $change);
    [$answer, $count] = signIn($passkey, $parts);
    echo "$answer " . text($passkey, $answer) . ", counter $count\n";
}
